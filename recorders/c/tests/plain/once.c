/* A routine that is called once takes a mutex of a thread that waits for the end of the routine. */
#include <pthread.h>

static pthread_once_t control = PTHREAD_ONCE_INIT;
static pthread_mutex_t mutex = PTHREAD_MUTEX_INITIALIZER;
static pthread_barrier_t both;

static void routine(void) {
    pthread_barrier_wait(&both);
    pthread_mutex_lock(&mutex);
}

static void *work(void *word) {
    pthread_once(&control, routine);
    return word;
}

int main(void) {
    pthread_t thread;
    pthread_barrier_init(&both, NULL, 2);
    pthread_mutex_lock(&mutex);
    pthread_create(&thread, NULL, work, NULL);
    pthread_barrier_wait(&both);
    pthread_once(&control, routine);
}
