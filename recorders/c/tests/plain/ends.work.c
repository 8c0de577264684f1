/* What each thread of ends.c does. */
#include <pthread.h>

extern pthread_barrier_t b;

void *work(void *word) {
    for (int round = 0; round < 2; round++) {
        pthread_barrier_wait(&b);
    }
    return word;
}
