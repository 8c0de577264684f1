/* Two threads take two mutexes crosswise, and do not look at what the call gives. */
#include <pthread.h>
#include <stdio.h>
static pthread_mutex_t mutexes[2] = {PTHREAD_MUTEX_INITIALIZER, PTHREAD_MUTEX_INITIALIZER};
static pthread_barrier_t both;

static void *work(void *word) {
    int me = (int)(long)word;
    pthread_mutex_lock(&mutexes[me]);
    pthread_barrier_wait(&both);
    pthread_mutex_lock(&mutexes[1 - me]);
    pthread_mutex_unlock(&mutexes[1 - me]);
    pthread_mutex_unlock(&mutexes[me]);
    return NULL;
}

int main(void) {
    pthread_t threads[2];
    pthread_barrier_init(&both, NULL, 2);
    for (long i = 0; i < 2; i++) {
        pthread_create(&threads[i], NULL, work, (void *)i);
    }
    for (int i = 0; i < 2; i++) {
        pthread_join(threads[i], NULL);
    }
    puts("end");
}
