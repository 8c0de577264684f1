/* A library whose constructor starts a thread, and with it uses what waits: it waits for the thread later. */
#include <pthread.h>
#include <semaphore.h>

static pthread_t thread;
static pthread_mutex_t mutex = PTHREAD_MUTEX_INITIALIZER;
static pthread_cond_t condition = PTHREAD_COND_INITIALIZER;
static pthread_barrier_t both;
static sem_t came;
static int turn;

static void *work(void *word) {
    pthread_barrier_wait(&both);
    pthread_mutex_lock(&mutex);
    while (turn == 0) {
        pthread_cond_wait(&condition, &mutex);
    }
    pthread_mutex_unlock(&mutex);
    sem_post(&came);
    return word;
}

__attribute__((constructor)) static void begin(void) {
    pthread_barrier_init(&both, NULL, 2);
    sem_init(&came, 0, 0);
    pthread_create(&thread, NULL, work, &turn);
    pthread_barrier_wait(&both);
}

int begun(void) {
    void *result = NULL;
    pthread_mutex_lock(&mutex);
    turn = 7;
    pthread_cond_signal(&condition);
    pthread_mutex_unlock(&mutex);
    sem_wait(&came);
    pthread_join(thread, &result);
    return *(int *)result;
}
