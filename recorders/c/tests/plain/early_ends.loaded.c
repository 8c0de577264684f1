/* A library whose constructor starts threads, by itself and by OpenMP, and waits for them: as long as it does, who else loads a library waits. The threads use what waits for
 * the first time. */
#include <dlfcn.h>
#include <pthread.h>
#include <time.h>

static pthread_mutex_t mutex = PTHREAD_MUTEX_INITIALIZER;
static pthread_rwlock_t rwlock = PTHREAD_RWLOCK_INITIALIZER;
static pthread_once_t control = PTHREAD_ONCE_INIT;
static int sum;

static void rest(void) {
    struct timespec moment = {0, 200000000};
    nanosleep(&moment, NULL);
}

static void *work(void *word) {
    pthread_mutex_lock(&mutex);
    rest();
    sum++;
    pthread_mutex_unlock(&mutex);
    pthread_once(&control, rest);
    pthread_rwlock_wrlock(&rwlock);
    rest();
    sum++;
    pthread_rwlock_unlock(&rwlock);
    return word;
}

__attribute__((constructor)) static void begin(void) {
    pthread_t threads[2];
    for (int i = 0; i < 2; i++) {
        pthread_create(&threads[i], NULL, work, NULL);
    }
    for (int i = 0; i < 2; i++) {
        pthread_join(threads[i], NULL);
    }
#pragma omp parallel num_threads(2)
    {
#pragma omp critical
        sum++;
#pragma omp barrier
#pragma omp single
        rest();
    }
}

int loaded(void) { return sum; }
