/* Two workers meet a thousand times, and then one of them goes once more. */
#include <pthread.h>

static pthread_barrier_t b;

static void *work(void *more) {
    for (int round = 0; round < (more == NULL ? 1000 : 1001); round++) {
        pthread_barrier_wait(&b);
    }
    return NULL;
}

int main(void) {
    pthread_barrier_init(&b, NULL, 2);
    for (int i = 0; i < 2; i++) {
        pthread_t worker;
        pthread_create(&worker, NULL, work, i == 1 ? &b : NULL);
    }
    pthread_exit(NULL);
}
