/* A worker returns in its second round, and never comes to the barrier again. */
#include <pthread.h>

static pthread_barrier_t b;

static void *work(void *me) {
    for (int round = 0; round < 3; round++) {
        if (me != NULL && round == 1) {
            return NULL;
        }
        pthread_barrier_wait(&b);
    }
    return NULL;
}

int main(void) {
    pthread_barrier_init(&b, NULL, 3);
    for (int i = 0; i < 3; i++) {
        pthread_t worker;
        pthread_create(&worker, NULL, work, i == 2 ? &b : NULL);
    }
    pthread_exit(NULL);
}
