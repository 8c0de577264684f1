/* Threads take mutexes in any order, and come to a barrier with one of them. Whoever is refused gives back what it has, and comes again. So all come to their end. */
#include <errno.h>
#include <pthread.h>
#include <stdio.h>
#include <stdlib.h>
#include "armus_guard.h"
enum { MUTEXES = 4, THREADS = 5, ROUNDS = 200, EVERY = 10 };
static pthread_mutex_t mutexes[MUTEXES];
static pthread_barrier_t meet, begun;
static long counts[MUTEXES];

static void come_with(pthread_mutex_t *m) {
    int has = pthread_mutex_lock(m) == 0;
    int result = pthread_barrier_wait(&meet);
    if (has) {
        pthread_mutex_unlock(m);
    }
    while (result == EDEADLK) {                                /* others may be on their way with mutexes that this thread has not */
        result = pthread_barrier_wait(&meet);
    }
}

static void *work(void *word) {
    unsigned seed = (unsigned)(long)word;
    armus_member(&meet);
    pthread_barrier_wait(&begun);
    for (int i = 1; i <= ROUNDS; i++) {
        int one = rand_r(&seed) % MUTEXES, other = (one + 1 + rand_r(&seed) % (MUTEXES - 1)) % MUTEXES;
        if (pthread_mutex_lock(&mutexes[one]) == 0) {
            if (pthread_mutex_lock(&mutexes[other]) == 0) {
                counts[one]++;
                counts[other]++;
                pthread_mutex_unlock(&mutexes[other]);
            }
            pthread_mutex_unlock(&mutexes[one]);
        }
        if (i % EVERY == 0) {
            come_with(&mutexes[rand_r(&seed) % MUTEXES]);
        }
    }
    return NULL;
}

int main(void) {
    pthread_t threads[THREADS];
    pthread_barrier_init(&meet, NULL, THREADS);
    pthread_barrier_init(&begun, NULL, THREADS);
    for (int i = 0; i < MUTEXES; i++) {
        pthread_mutex_init(&mutexes[i], NULL);
    }
    for (long i = 0; i < THREADS; i++) {
        pthread_create(&threads[i], NULL, work, (void *)(i + 1));
    }
    for (int i = 0; i < THREADS; i++) {
        pthread_join(threads[i], NULL);
    }
    puts("end");
}
