// Main leaves by pthread_exit, and the process ends with its last thread: what that has written is there. One that a thread forks, and that ends by the return of its
// thread, does the same.
#include <pthread.h>
#include <stdio.h>
#include <sys/wait.h>
#include <unistd.h>

static pthread_t mainly;
static pthread_barrier_t both;

static void *joins(void *nothing) {
    pthread_join(mainly, NULL);
    pthread_barrier_wait(&both);
    printf("main has left\n");
    return nothing;
}

static void *forks(void *nothing) {
    if (fork() == 0) {
        pthread_mutex_t lock = PTHREAD_MUTEX_INITIALIZER;
        pthread_mutex_lock(&lock);
        printf("child\n");
        return nothing;
    }
    wait(NULL);
    usleep(400000);
    pthread_barrier_wait(&both);
    return nothing;
}

int main(void) {
    pthread_t one, other;
    mainly = pthread_self();
    pthread_barrier_init(&both, NULL, 2);
    pthread_create(&one, NULL, joins, NULL);
    pthread_create(&other, NULL, forks, NULL);
    usleep(200000);
    pthread_exit(NULL);
}
