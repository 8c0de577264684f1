/* The same wait is refused five thousand times, since nobody looks at why. It is told once, and at the end how often. */
#include <errno.h>
#include <pthread.h>
#include <stdio.h>

int main(void) {
    pthread_mutex_t mutex = PTHREAD_MUTEX_INITIALIZER;
    pthread_mutex_lock(&mutex);
    for (int i = 0; i < 5000; i++) {
        if (pthread_mutex_lock(&mutex) != EDEADLK) {
            puts("taken twice");
        }
    }
    pthread_mutex_unlock(&mutex);
    puts("end");
}
