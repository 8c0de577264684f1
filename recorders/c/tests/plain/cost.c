/* What operations cost in a program of several threads: the least of many rounds, in tenths of a nanosecond. */
#include <pthread.h>
#include <semaphore.h>
#include <stdio.h>
#include <time.h>

enum { ROUNDS = 60, TIMES = 20000 };

static pthread_barrier_t b;
static pthread_mutex_t m = PTHREAD_MUTEX_INITIALIZER;
static pthread_rwlock_t l = PTHREAD_RWLOCK_INITIALIZER;
static sem_t s;

static long now(void) {
    struct timespec t;
    clock_gettime(CLOCK_MONOTONIC, &t);
    return t.tv_sec * 1000000000L + t.tv_nsec;
}

#define LEAST(name, operation) \
    long name##_least = 1000000000; \
    for (int round = 0; round < ROUNDS; round++) { \
        long begun = now(); \
        for (int i = 0; i < TIMES; i++) { \
            operation; \
        } \
        long took = (now() - begun) * 10 / TIMES; \
        name##_least = took < name##_least ? took : name##_least; \
    } \
    printf(#name " %ld\n", name##_least)

static void *nothing(void *word) { return word; }

int main(void) {
    pthread_t t;
    pthread_create(&t, NULL, nothing, NULL);
    pthread_join(t, NULL);
    pthread_barrier_init(&b, NULL, 1);
    sem_init(&s, 0, 0);
    LEAST(barrier, pthread_barrier_wait(&b));
    LEAST(mutex, pthread_mutex_lock(&m); pthread_mutex_unlock(&m));
    LEAST(rwlock, pthread_rwlock_rdlock(&l); pthread_rwlock_unlock(&l));
    LEAST(semaphore, sem_post(&s); sem_wait(&s));
}
