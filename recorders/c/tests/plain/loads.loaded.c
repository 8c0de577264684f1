/* A library with OpenMP of its own: a region, a barrier, two kinds of critical sections, both kinds of locks, a loop, sections, tasks, turns, and one that tells the others. */
#include <omp.h>

static omp_lock_t lock;
static omp_nest_lock_t nest_lock;

static void in_turn(int *sum) {
#pragma omp for ordered schedule(dynamic)
    for (int i = 0; i < 8; i++) {
#pragma omp ordered
        *sum += i;
    }
}

static void by_tasks(int *sum) {
#pragma omp single
    {
#pragma omp taskgroup
        for (int i = 0; i < 4; i++) {
#pragma omp task
#pragma omp atomic
            *sum += 100;
        }
#pragma omp taskwait
    }
}

static void in_sections(int *sum) {
#pragma omp sections
    {
#pragma omp section
#pragma omp atomic
        *sum += 1000;
#pragma omp section
#pragma omp atomic
        *sum += 1000;
    }
}

static void locked(int *sum) {
    omp_set_lock(&lock);
    *sum += 10000;
    omp_unset_lock(&lock);
    omp_set_nest_lock(&nest_lock);
    omp_set_nest_lock(&nest_lock);
    *sum += 10000;
    omp_unset_nest_lock(&nest_lock);
    omp_unset_nest_lock(&nest_lock);
#pragma omp critical
    *sum += 10000;
#pragma omp critical(named)
    *sum += 10000;
}

int locks(void) {
    int sum = 0;
    omp_init_lock(&lock);
    omp_init_nest_lock(&nest_lock);
    locked(&sum);
    return sum + omp_test_lock(&lock) + omp_test_nest_lock(&nest_lock);
}

int adds(void) {
    int turns = 0, tasks = 0, sections = 0, under_locks = 0, told = 0;
    omp_init_lock(&lock);
    omp_init_nest_lock(&nest_lock);
#pragma omp parallel num_threads(2)
    {
        int word = 0;
        in_turn(&turns);
#pragma omp barrier
        by_tasks(&tasks);
        in_sections(&sections);
        for (int i = 0; i < 2; i++) {
            if (omp_get_thread_num() == i) {
                locked(&under_locks);
            }
#pragma omp barrier
        }
#pragma omp single copyprivate(word)
        word = 100000;
#pragma omp atomic
        told += word;
    }
#pragma omp parallel for num_threads(2) schedule(dynamic)
    for (int i = 0; i < 10; i++) {
#pragma omp atomic
        told += 100000;
    }
    return turns + tasks + sections + under_locks + told;
}
