/* A condition that a signal's handler signals. No standard allows it, and many programs do it. */
#include <pthread.h>
#include <signal.h>
#include <stdio.h>
#include <unistd.h>

static pthread_mutex_t mutex = PTHREAD_MUTEX_INITIALIZER;
static pthread_cond_t condition = PTHREAD_COND_INITIALIZER;
static volatile sig_atomic_t rang;

static void rings(int number) {
    (void)number;
    rang = 1;
    pthread_cond_signal(&condition);
}

int main(void) {
    signal(SIGALRM, rings);
    alarm(2);
    pthread_mutex_lock(&mutex);
    while (!rang) {
        pthread_cond_wait(&condition, &mutex);
    }
    pthread_mutex_unlock(&mutex);
    puts("end");
}
