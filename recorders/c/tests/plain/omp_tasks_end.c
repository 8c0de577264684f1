/* Comes to its end: tasks that wait for their own tasks, for groups of them and for loops, a lock that each thread takes twice, ordered loops, and values that are
 * handed to all. */
#include <omp.h>
#include <stdio.h>
#include <unistd.h>

static omp_nest_lock_t twice;
static long sum;

static void adds(long n) {
    omp_set_nest_lock(&twice);
    omp_set_nest_lock(&twice);
    sum += n;
    omp_unset_nest_lock(&twice);
    if (n % 16 == 0) {
        usleep(1000);
    }
    omp_unset_nest_lock(&twice);
}

static long leaves(int depth) {
    long left, right;
    if (depth == 0) {
        adds(1);
        return 1;
    }
#pragma omp task shared(left)
    left = leaves(depth - 1);
    right = leaves(depth - 1);
#pragma omp taskwait
    adds(depth);
    return left + right;
}

int main(void) {
    omp_init_nest_lock(&twice);
    long counted = 0, in_order = 0, handed = 0;
#pragma omp parallel num_threads(4)
    {
        for (int turn = 0; turn < 20; turn++) {
#pragma omp single
            counted += leaves(5);
#pragma omp single
#pragma omp taskgroup
            for (int i = 0; i < 16; i++) {
#pragma omp task
                {
                    usleep(2000);
                    adds(16);
                }
            }
#pragma omp single
#pragma omp taskloop grainsize(1)
            for (int i = 0; i < 8; i++) {
                usleep(500);
                adds(16);
            }
#pragma omp for ordered schedule(static, 1)
            for (int i = 0; i < 8; i++) {
                usleep((unsigned)(8 - i) * 100);
#pragma omp ordered
                in_order = in_order * 3 % 1000003 + i;
            }
            long value = 0;
#pragma omp single copyprivate(value)
            {
                usleep(1000);
                value = turn;
            }
#pragma omp atomic
            handed += value;
        }
    }
    printf("%ld %ld %ld %ld\n", counted, sum, in_order, handed);
}
