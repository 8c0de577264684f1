/* Two barriers, met in opposite order. */
#include <pthread.h>

static pthread_barrier_t left, right;

static void *other(void *word) {
    pthread_barrier_wait(&right);
    pthread_barrier_wait(&left);
    return word;
}

int main(void) {
    pthread_t thread;
    pthread_barrier_init(&left, NULL, 2);
    pthread_barrier_init(&right, NULL, 2);
    pthread_create(&thread, NULL, other, NULL);
    pthread_barrier_wait(&left);
    pthread_barrier_wait(&right);
    pthread_join(thread, NULL);
}
