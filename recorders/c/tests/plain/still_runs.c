/* Main has work of its own for an hour before it comes to the barrier. */
#include <pthread.h>
#include <unistd.h>

static pthread_barrier_t b;

static void *work(void *word) {
    pthread_barrier_wait(&b);
    return word;
}

int main(void) {
    pthread_t worker;
    pthread_barrier_init(&b, NULL, 2);
    pthread_create(&worker, NULL, work, NULL);
    sleep(3600);
    pthread_barrier_wait(&b);
}
