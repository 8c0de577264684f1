/* A thread that ends, by an early return, without giving a mutex back. */
#include <pthread.h>
#include <stdio.h>

static pthread_mutex_t mutex = PTHREAD_MUTEX_INITIALIZER;

static void *returns_early(void *word) {
    pthread_mutex_lock(&mutex);
    if (word == NULL) {
        return NULL;
    }
    pthread_mutex_unlock(&mutex);
    return NULL;
}

int main(void) {
    pthread_t thread;
    pthread_create(&thread, NULL, returns_early, NULL);
    pthread_join(thread, NULL);
    pthread_mutex_lock(&mutex);
    puts("end");
}
