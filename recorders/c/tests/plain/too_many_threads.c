/* A barrier of two, and three threads: two of them pass, and one is left. */
#include <pthread.h>

static pthread_barrier_t b;

static void *work(void *word) {
    pthread_barrier_wait(&b);
    return word;
}

int main(void) {
    pthread_barrier_init(&b, NULL, 2);
    for (int i = 0; i < 3; i++) {
        pthread_t worker;
        pthread_create(&worker, NULL, work, NULL);
    }
    pthread_exit(NULL);
}
