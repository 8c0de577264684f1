/* The last thread of a team makes one turn more, with a barrier in it, than the others. */
#include <omp.h>

int main(void) {
#pragma omp parallel num_threads(4)
    {
        int turns = omp_get_thread_num() == 3 ? 4 : 3;
        for (int i = 0; i < turns; i++) {
#pragma omp barrier
        }
    }
}
