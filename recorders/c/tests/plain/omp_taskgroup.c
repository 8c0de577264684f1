/* Two tasks of a group meet at a barrier of three, to which the thread that waits for the group does not come. */
#include <omp.h>
#include <pthread.h>
#include <unistd.h>

static pthread_barrier_t three;
static volatile int begun[2];

int main(void) {
    pthread_barrier_init(&three, NULL, 3);
#pragma omp parallel num_threads(3)
#pragma omp single
    {
#pragma omp taskgroup
        {
            for (int i = 0; i < 2; i++) {
#pragma omp task firstprivate(i)
                {
                    begun[i] = 1;
                    pthread_barrier_wait(&three);
                }
            }
            while (!begun[0] || !begun[1]) {
                usleep(1000);
            }
        }
    }
}
