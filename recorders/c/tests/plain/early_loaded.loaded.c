/* A library whose constructor waits for the end of a thread, which waits for a mutex of the constructor. */
#include <pthread.h>

static pthread_mutex_t mutex = PTHREAD_MUTEX_INITIALIZER;

static void *work(void *word) {
    pthread_mutex_lock(&mutex);
    return word;
}

__attribute__((constructor)) static void begin(void) {
    pthread_t thread;
    pthread_mutex_lock(&mutex);
    pthread_create(&thread, NULL, work, NULL);
    pthread_join(thread, NULL);
}
