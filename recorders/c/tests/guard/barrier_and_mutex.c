/* One thread comes to the barrier with a mutex that the other one needs before it comes there. */
#include <errno.h>
#include <pthread.h>
#include <stdio.h>
#include "armus_guard.h"
static pthread_mutex_t account = PTHREAD_MUTEX_INITIALIZER;
static pthread_barrier_t meet, begun;

static void *come(void *word) {
    armus_member(&meet);
    pthread_barrier_wait(&begun);
    int result = pthread_mutex_lock(&account);
    if (result == EDEADLK) {
        puts("refused");
        pthread_barrier_wait(&meet);                           /* without it */
        return word;
    }
    result = pthread_barrier_wait(&meet);
    pthread_mutex_unlock(&account);
    if (result == EDEADLK) {
        puts("refused");
        pthread_barrier_wait(&meet);
    }
    return word;
}

int main(void) {
    pthread_t threads[2];
    pthread_barrier_init(&meet, NULL, 2);
    pthread_barrier_init(&begun, NULL, 2);
    for (int i = 0; i < 2; i++) {
        pthread_create(&threads[i], NULL, come, NULL);
    }
    for (int i = 0; i < 2; i++) {
        pthread_join(threads[i], NULL);
    }
    pthread_barrier_destroy(&meet);
    puts("end");
}
