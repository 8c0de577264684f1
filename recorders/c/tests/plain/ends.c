/* Comes to its end: three threads meet twice, by a function that stands in another file. */
#include <pthread.h>

pthread_barrier_t b;

void *work(void *word);

int main(void) {
    pthread_t workers[2];
    pthread_barrier_init(&b, NULL, 3);
    for (int i = 0; i < 2; i++) {
        pthread_create(&workers[i], NULL, work, NULL);
    }
    work(NULL);
    for (int i = 0; i < 2; i++) {
        pthread_join(workers[i], NULL);
    }
    pthread_barrier_destroy(&b);
}
