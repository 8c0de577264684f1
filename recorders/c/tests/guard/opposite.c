/* Two barriers, met in opposite order. Who is refused at one comes to the other one first. */
#include <errno.h>
#include <pthread.h>
#include <stdio.h>
#include "armus_guard.h"
static pthread_barrier_t barriers[2], begun;

static void *come(void *word) {
    int first = (int)(long)word;
    armus_member(&barriers[0]);
    armus_member(&barriers[1]);
    pthread_barrier_wait(&begun);
    for (int round = 0; round < 3; round++) {
        if (pthread_barrier_wait(&barriers[first]) == EDEADLK) {
            puts("refused");
            first = 1 - first;
            pthread_barrier_wait(&barriers[first]);
        }
        pthread_barrier_wait(&barriers[1 - first]);
    }
    return NULL;
}

int main(void) {
    pthread_t threads[2];
    pthread_barrier_init(&barriers[0], NULL, 2);
    pthread_barrier_init(&barriers[1], NULL, 2);
    pthread_barrier_init(&begun, NULL, 2);
    for (long i = 0; i < 2; i++) {
        pthread_create(&threads[i], NULL, come, (void *)i);
    }
    for (int i = 0; i < 2; i++) {
        pthread_join(threads[i], NULL);
    }
    puts("end");
}
