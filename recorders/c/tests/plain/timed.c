/* Comes to its end: main waits at a semaphore that a signal's handler posts, a thread is cancelled at a condition and its cleanup takes a while, one comes late to a
 * barrier, and a barrier is met while a cancellation is pending. */
#include <pthread.h>
#include <semaphore.h>
#include <signal.h>
#include <stdio.h>
#include <unistd.h>

static sem_t posted;
static pthread_mutex_t m = PTHREAD_MUTEX_INITIALIZER;
static pthread_cond_t never = PTHREAD_COND_INITIALIZER;
static pthread_barrier_t late, pending;
static volatile int go;

static void post(int number) {
    (void)number;
    sem_post(&posted);
}

static void takes_a_while(void *word) {
    (void)word;
    pthread_mutex_unlock(&m);
    usleep(400000);
}

static void *is_cancelled(void *word) {
    pthread_mutex_lock(&m);
    pthread_cleanup_push(takes_a_while, NULL);
    for (;;) {
        pthread_cond_wait(&never, &m);
    }
    pthread_cleanup_pop(1);
    return word;
}

static void *comes_late(void *word) {
    usleep(500000);
    pthread_barrier_wait(&late);
    return word;
}

static void *is_pending(void *word) {
    while (!go) {
        continue;
    }
    pthread_barrier_wait(&pending);                 /* no cancellation point */
    pthread_testcancel();
    return word;
}

int main(void) {
    pthread_t cancelled, comes, meets;
    sem_init(&posted, 0, 0);
    signal(SIGALRM, post);
    pthread_barrier_init(&late, NULL, 2);
    pthread_barrier_init(&pending, NULL, 2);
    pthread_create(&cancelled, NULL, is_cancelled, NULL);
    pthread_create(&comes, NULL, comes_late, NULL);
    pthread_create(&meets, NULL, is_pending, NULL);
    pthread_cancel(meets);
    go = 1;
    pthread_barrier_wait(&pending);
    pthread_join(meets, NULL);
    pthread_barrier_wait(&late);
    pthread_cancel(cancelled);
    pthread_join(cancelled, NULL);
    pthread_join(comes, NULL);
    alarm(1);
    while (sem_wait(&posted) != 0) {
        continue;
    }
    puts("end");
}
