/* The master does not come to the barrier of its team, and goes to work of its own. */
#include <omp.h>
#include <unistd.h>

int main(void) {
#pragma omp parallel num_threads(3)
    {
#pragma omp barrier
        if (omp_get_thread_num() != 0) {
#pragma omp barrier
        } else {
            sleep(3600);
        }
    }
}
