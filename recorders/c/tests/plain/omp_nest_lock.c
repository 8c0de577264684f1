/* The master takes a lock twice, gives it back once, and goes to the barrier of its team. The other thread wants the lock first. */
#include <omp.h>

static omp_nest_lock_t twice;

int main(void) {
    omp_init_nest_lock(&twice);
#pragma omp parallel num_threads(2)
    {
        if (omp_get_thread_num() == 0) {
            omp_set_nest_lock(&twice);
            omp_set_nest_lock(&twice);
            omp_unset_nest_lock(&twice);
        }
#pragma omp barrier
        if (omp_get_thread_num() == 1) {
            omp_set_nest_lock(&twice);
        }
#pragma omp barrier
        omp_unset_nest_lock(&twice);
    }
}
