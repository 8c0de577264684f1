/* Main is counted as a party of the barrier of its workers, and waits at another one for their end. */
#include <pthread.h>

static pthread_barrier_t pc, pb;

static void *work(void *word) {
    for (int round = 0; round < 4; round++) {
        pthread_barrier_wait(&pc);
    }
    pthread_barrier_wait(&pb);
    return word;
}

int main(void) {
    pthread_barrier_init(&pc, NULL, 4);
    pthread_barrier_init(&pb, NULL, 4);
    for (int i = 0; i < 3; i++) {
        pthread_t worker;
        pthread_create(&worker, NULL, work, NULL);
    }
    pthread_barrier_wait(&pb);
}
