/* Four threads take two mutexes each, in a circle. The one that is refused gives its first one back. */
#include <errno.h>
#include <pthread.h>
#include <stdio.h>
enum { COUNT = 4 };
static pthread_mutex_t mutexes[COUNT];
static pthread_barrier_t all_have_one;

static void *work(void *word) {
    int me = (int)(long)word;
    pthread_mutex_lock(&mutexes[me]);
    pthread_barrier_wait(&all_have_one);
    int result = pthread_mutex_lock(&mutexes[(me + 1) % COUNT]);
    if (result == EDEADLK) {
        puts("refused");
    } else {
        pthread_mutex_unlock(&mutexes[(me + 1) % COUNT]);
    }
    pthread_mutex_unlock(&mutexes[me]);
    return NULL;
}

int main(void) {
    pthread_t threads[COUNT];
    pthread_barrier_init(&all_have_one, NULL, COUNT);
    for (int i = 0; i < COUNT; i++) {
        pthread_mutex_init(&mutexes[i], NULL);
    }
    for (long i = 0; i < COUNT; i++) {
        pthread_create(&threads[i], NULL, work, (void *)i);
    }
    for (int i = 0; i < COUNT; i++) {
        pthread_join(threads[i], NULL);
    }
    puts("end");
}
