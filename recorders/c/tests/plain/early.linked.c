/* A library whose constructor starts two threads, which take two mutexes in opposite order. */
#include <pthread.h>

pthread_t early[2];
static pthread_mutex_t one = PTHREAD_MUTEX_INITIALIZER, other = PTHREAD_MUTEX_INITIALIZER;
static pthread_barrier_t both;

static void *one_first(void *word) {
    pthread_mutex_lock(&one);
    pthread_barrier_wait(&both);
    pthread_mutex_lock(&other);
    return word;
}

static void *other_first(void *word) {
    pthread_mutex_lock(&other);
    pthread_barrier_wait(&both);
    pthread_mutex_lock(&one);
    return word;
}

__attribute__((constructor)) static void begin(void) {
    pthread_barrier_init(&both, NULL, 2);
    pthread_create(&early[0], NULL, one_first, NULL);
    pthread_create(&early[1], NULL, other_first, NULL);
}
