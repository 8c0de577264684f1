/* Two servers go on for ever. Meanwhile two threads take two mutexes in opposite order, two wait for each other's end, and two take a mutex and a read-write lock so. */
#include <pthread.h>
#include <unistd.h>

static pthread_mutex_t a = PTHREAD_MUTEX_INITIALIZER, b = PTHREAD_MUTEX_INITIALIZER, queue = PTHREAD_MUTEX_INITIALIZER, m = PTHREAD_MUTEX_INITIALIZER;
static pthread_rwlock_t l = PTHREAD_RWLOCK_INITIALIZER;
static pthread_barrier_t locked, begun, mixed;
static pthread_t joins[2];

static void *server(void *word) {
    for (;;) {
        pthread_mutex_lock(&queue);
        usleep(100);
        pthread_mutex_unlock(&queue);
    }
    return word;
}

static void *lock(void *first) {
    pthread_mutex_t *second = first == &a ? &b : &a;
    pthread_mutex_lock(first);
    pthread_barrier_wait(&locked);
    pthread_mutex_lock(second);
    return NULL;
}

static void *join(void *other) {
    pthread_barrier_wait(&begun);
    pthread_join(*(pthread_t *)other, NULL);
    return NULL;
}

static void *mutex_first(void *word) {
    pthread_mutex_lock(&m);
    pthread_barrier_wait(&mixed);
    pthread_rwlock_rdlock(&l);
    return word;
}

static void *rwlock_first(void *word) {
    pthread_rwlock_wrlock(&l);
    pthread_barrier_wait(&mixed);
    pthread_mutex_lock(&m);
    return word;
}

int main(void) {
    pthread_t t;
    pthread_barrier_init(&locked, NULL, 2);
    pthread_barrier_init(&begun, NULL, 3);
    pthread_barrier_init(&mixed, NULL, 2);
    for (int i = 0; i < 2; i++) {
        pthread_create(&t, NULL, server, NULL);
    }
    pthread_create(&t, NULL, lock, &a);
    pthread_create(&t, NULL, lock, &b);
    pthread_create(&joins[0], NULL, join, &joins[1]);
    pthread_create(&joins[1], NULL, join, &joins[0]);
    pthread_barrier_wait(&begun);
    pthread_create(&t, NULL, mutex_first, NULL);
    pthread_create(&t, NULL, rwlock_first, NULL);
    pthread_exit(NULL);
}
