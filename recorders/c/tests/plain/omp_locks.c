/* Two threads of a team take a lock and a named critical section in opposite order, and a third waits for both at the end of the region. */
#include <omp.h>
#include <unistd.h>

int main(void) {
    omp_lock_t lock;
    omp_init_lock(&lock);
#pragma omp parallel num_threads(3)
    {
        if (omp_get_thread_num() == 1) {
            omp_set_lock(&lock);
            usleep(200000);
#pragma omp critical(part)
            omp_unset_lock(&lock);
        } else if (omp_get_thread_num() == 2) {
#pragma omp critical(part)
            {
                usleep(200000);
                omp_set_lock(&lock);
            }
        }
    }
}
