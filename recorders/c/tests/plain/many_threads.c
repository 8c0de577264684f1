/* Comes to its end: a thousand threads begin, meet and end, and then five thousand one behind the other. */
#include <pthread.h>
#include <stdio.h>

enum { MANY = 1000, TURNS = 5000 };
static pthread_barrier_t met;
static pthread_mutex_t m = PTHREAD_MUTEX_INITIALIZER;
static int count;

static void *meets(void *word) {
    pthread_barrier_wait(&met);
    return word;
}

static void *counts(void *word) {
    pthread_mutex_lock(&m);
    count++;
    pthread_mutex_unlock(&m);
    return word;
}

int main(void) {
    static pthread_t t[MANY];
    pthread_attr_t small;
    pthread_attr_init(&small);
    pthread_attr_setstacksize(&small, 65536);
    pthread_barrier_init(&met, NULL, MANY);
    for (int i = 0; i < MANY; i++) {
        pthread_create(&t[i], &small, meets, NULL);
    }
    for (int i = 0; i < MANY; i++) {
        pthread_join(t[i], NULL);
    }
    for (int i = 0; i < TURNS; i++) {
        pthread_create(&t[0], &small, counts, NULL);
        pthread_join(t[0], NULL);
    }
    printf("%d\n", count);
}
