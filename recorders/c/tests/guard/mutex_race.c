/* No deadlock: threads take mutexes in rising order, wait for conditions, come and end. Whoever takes a mutex is not yet known as its owner for a moment, and one that was just given back still is: neither
 * may refuse anybody. */
#include <pthread.h>
#include <stdio.h>
#include <stdlib.h>
enum { MUTEXES = 6, THREADS = 8, ROUNDS = 3000 };
static pthread_mutex_t mutexes[MUTEXES], changes = PTHREAD_MUTEX_INITIALIZER;
static pthread_cond_t changed = PTHREAD_COND_INITIALIZER;
static long counts[MUTEXES], turn;

static int lock(pthread_mutex_t *m) {
    int result = pthread_mutex_lock(m);
    if (result != 0) {
        printf("result %d\n", result);
        exit(1);
    }
    return result;
}

static void *change(void *word) {
    lock(&changes);
    long now = turn++;
    pthread_cond_broadcast(&changed);
    while (word != NULL && turn == now + 1) {
        pthread_cond_wait(&changed, &changes);
    }
    pthread_mutex_unlock(&changes);
    return NULL;
}

static void *work(void *word) {
    unsigned seed = (unsigned)(long)word;
    for (int i = 0; i < ROUNDS; i++) {
        int low = rand_r(&seed) % (MUTEXES - 1), high = low + 1 + rand_r(&seed) % (MUTEXES - low - 1);
        lock(&mutexes[low]);
        lock(&mutexes[high]);
        counts[low]++;
        counts[high]++;
        if (i % 10 == 0) {
            sched_yield();
        }
        pthread_mutex_unlock(&mutexes[low]);
        pthread_mutex_unlock(&mutexes[high]);
        if (i % 100 == 0) {
            pthread_t other;
            change(NULL);
            pthread_create(&other, NULL, change, NULL);
            pthread_join(other, NULL);
        }
    }
    return NULL;
}

int main(void) {
    pthread_t threads[THREADS], waiting;
    pthread_mutexattr_t again;
    pthread_mutexattr_init(&again);
    pthread_mutexattr_settype(&again, PTHREAD_MUTEX_RECURSIVE);
    for (int i = 0; i < MUTEXES; i++) {
        pthread_mutex_init(&mutexes[i], i % 3 == 2 ? &again : NULL);
    }
    for (long i = 0; i < THREADS; i++) {
        pthread_create(&threads[i], NULL, work, (void *)i);
    }
    pthread_create(&waiting, NULL, change, &turn);
    long sum = 0;
    for (int i = 0; i < THREADS; i++) {
        pthread_join(threads[i], NULL);
    }
    change(NULL);
    pthread_join(waiting, NULL);
    for (int i = 0; i < MUTEXES; i++) {
        sum += counts[i];
    }
    printf("%ld\nend\n", sum);
}
