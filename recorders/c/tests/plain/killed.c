/* Is ended by a signal of its own while two of its threads wait for main. */
#include <pthread.h>
#include <signal.h>
#include <stdio.h>
#include <unistd.h>

static pthread_barrier_t met;

static void *waits(void *word) {
    pthread_barrier_wait(&met);
    return word;
}

int main(void) {
    pthread_t t;
    pthread_barrier_init(&met, NULL, 3);
    pthread_create(&t, NULL, waits, NULL);
    pthread_create(&t, NULL, waits, NULL);
    usleep(400000);
    puts("before");
    fflush(stdout);
    kill(getpid(), SIGTERM);
    pause();
}
