/* A library with OpenMP of its own: two threads enter two critical sections in opposite order. */
#include <omp.h>

static void both(int *came) {
#pragma omp barrier
    *came = 1;
}

static void one_first(int *came) {
#pragma omp critical(one)
    {
        both(came);
#pragma omp critical(other)
        *came = 2;
    }
}

static void other_first(int *came) {
#pragma omp critical(other)
    {
        both(came);
#pragma omp critical(one)
        *came = 2;
    }
}

void crosses(void) {
    int came[2] = {0, 0};
#pragma omp parallel num_threads(2)
    if (omp_get_thread_num() == 0) {
        one_first(&came[0]);
    } else {
        other_first(&came[1]);
    }
}
