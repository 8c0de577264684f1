/* A child by fork deadlocks at two barriers, while its parent waits for it. */
#include <pthread.h>
#include <sys/wait.h>
#include <unistd.h>

static pthread_barrier_t left, right;

static void *other(void *word) {
    pthread_barrier_wait(&right);
    pthread_barrier_wait(&left);
    return word;
}

static void *nothing(void *word) { return word; }

int main(void) {
    pthread_t t;
    pthread_create(&t, NULL, nothing, NULL);
    pthread_join(t, NULL);
    pthread_barrier_init(&left, NULL, 2);
    pthread_barrier_init(&right, NULL, 2);
    if (fork() == 0) {
        pthread_create(&t, NULL, other, NULL);
        pthread_barrier_wait(&left);
        pthread_barrier_wait(&right);
        pthread_join(t, NULL);
        return 0;
    }
    return wait(NULL) < 0;
}
