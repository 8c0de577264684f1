/* A thread has a lock while it waits for its task. The task is run by the other thread, and wants this lock. */
#include <omp.h>
#include <unistd.h>

static omp_lock_t held;
static volatile int begun;

int main(void) {
    omp_init_lock(&held);
#pragma omp parallel num_threads(2)
#pragma omp single
    {
        omp_set_lock(&held);
#pragma omp task
        {
            begun = 1;
            omp_set_lock(&held);
            omp_unset_lock(&held);
        }
        while (!begun) {
            usleep(1000);
        }
#pragma omp taskwait
        omp_unset_lock(&held);
    }
}
