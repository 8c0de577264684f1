/* The first turn of an ordered loop waits for the second one to come to a barrier, and the second one for its place in the order. */
#include <omp.h>
#include <pthread.h>

static pthread_barrier_t two;

int main(void) {
    pthread_barrier_init(&two, NULL, 2);
#pragma omp parallel for ordered schedule(static, 1) num_threads(2)
    for (int i = 0; i < 2; i++) {
        if (i == 0) {
            pthread_barrier_wait(&two);
        }
#pragma omp ordered
        if (i == 1) {
            pthread_barrier_wait(&two);
        }
    }
}
