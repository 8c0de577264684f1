/* A barrier of four, and three workers: main was meant to be the fourth. */
#include <pthread.h>

static pthread_barrier_t b;

static void *work(void *word) {
    for (int round = 0; round < 2; round++) {
        pthread_barrier_wait(&b);
    }
    return word;
}

int main(void) {
    pthread_t workers[3];
    pthread_barrier_init(&b, NULL, 4);
    for (int i = 0; i < 3; i++) {
        pthread_create(&workers[i], NULL, work, NULL);
    }
    for (int i = 0; i < 3; i++) {
        pthread_join(workers[i], NULL);
    }
}
