/* Threads whose names are like those that the recorder itself gives, and main, which ends their waits. */
#define _GNU_SOURCE
#include <pthread.h>
#include <semaphore.h>
#include <stdio.h>
#include <unistd.h>

static sem_t go;

static void *waits(void *name) {
    pthread_setname_np(pthread_self(), name);
    sem_wait(&go);
    return NULL;
}

int main(void) {
    static const char *const names[] = {"?any-thread", "main", "thread-4", "?semaphore-1", "armus"};
    pthread_t threads[5];
    sem_init(&go, 0, 0);
    for (int i = 0; i < 5; i++) {
        pthread_create(&threads[i], NULL, waits, (void *)names[i]);
        usleep(200000);
    }
    for (int i = 0; i < 5; i++) {
        sem_post(&go);
    }
    for (int i = 0; i < 5; i++) {
        pthread_join(threads[i], NULL);
    }
    puts("end");
}
