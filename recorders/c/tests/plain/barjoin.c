/* Main waits for the end of a thread that waits for main at a barrier. */
#include <pthread.h>

static pthread_barrier_t met;

static void *meets(void *word) {
    pthread_barrier_wait(&met);
    return word;
}

int main(void) {
    pthread_t t;
    pthread_barrier_init(&met, NULL, 2);
    pthread_create(&t, NULL, meets, NULL);
    pthread_join(t, NULL);
    pthread_barrier_wait(&met);
}
