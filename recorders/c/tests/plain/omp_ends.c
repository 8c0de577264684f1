/* Comes to its end: a team of three meets twice. */
#include <omp.h>

int main(void) {
#pragma omp parallel num_threads(3)
    {
#pragma omp barrier
#pragma omp barrier
    }
}
