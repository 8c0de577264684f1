/* Comes to its end: a thread takes all signals by sigwait, which are blocked everywhere; then a handler runs, and only in a thread of the program. */
#include <pthread.h>
#include <semaphore.h>
#include <signal.h>
#include <stdio.h>
#include <unistd.h>

static pthread_t known[2];
static sem_t handled;
static volatile int right = 1;

static void handle(int number) {
    (void)number;
    right &= pthread_equal(pthread_self(), known[0]) || pthread_equal(pthread_self(), known[1]);
    sem_post(&handled);
}

static void *takes(void *set) {
    int number, sum = 0;
    for (int i = 0; i < 3; i++) {
        sigwait(set, &number);
        sum += number == SIGUSR1 || number == SIGUSR2 || number == SIGTERM;
    }
    printf("%d taken\n", sum);
    return NULL;
}

int main(void) {
    sigset_t every, none;
    sigfillset(&every);
    sigemptyset(&none);
    sem_init(&handled, 0, 0);
    pthread_sigmask(SIG_BLOCK, &every, NULL);
    known[0] = pthread_self();
    pthread_create(&known[1], NULL, takes, &every);
    usleep(200000);
    kill(getpid(), SIGUSR1);
    usleep(50000);
    kill(getpid(), SIGUSR2);
    usleep(50000);
    kill(getpid(), SIGTERM);
    pthread_join(known[1], NULL);
    signal(SIGUSR1, handle);
    kill(getpid(), SIGUSR1);
    usleep(300000);
    pthread_sigmask(SIG_SETMASK, &none, NULL);
    while (sem_wait(&handled) != 0) {
        continue;
    }
    puts(right ? "handled by a thread of the program" : "handled by another");
}
