/* Main joins a thread with a mutex that the thread needs. */
#include <errno.h>
#include <pthread.h>
#include <semaphore.h>
#include <stdio.h>
static pthread_mutex_t account = PTHREAD_MUTEX_INITIALIZER;
static sem_t has;

static void *work(void *word) {
    sem_wait(&has);
    if (pthread_mutex_lock(&account) == EDEADLK) {
        puts("refused");
    } else {
        pthread_mutex_unlock(&account);
    }
    return word;
}

int main(void) {
    pthread_t worker;
    sem_init(&has, 0, 0);
    pthread_create(&worker, NULL, work, NULL);
    pthread_mutex_lock(&account);
    sem_post(&has);
    int result = pthread_join(worker, NULL);
    pthread_mutex_unlock(&account);
    if (result == EDEADLK) {
        puts("refused");
        pthread_join(worker, NULL);
    }
    puts("end");
}
