/* Whoever is alone in a region, whose value the others get, waits at a barrier to which nobody else comes. */
#include <omp.h>
#include <pthread.h>

static pthread_barrier_t two;

int main(void) {
    int value = 0;
    pthread_barrier_init(&two, NULL, 2);
#pragma omp parallel num_threads(3) firstprivate(value)
    {
#pragma omp single copyprivate(value)
        {
            pthread_barrier_wait(&two);
            value = 1;
        }
    }
}
