/* What a C or C++ program says to `armus-run --guard`: who belongs to a barrier. Without the guard it says nothing, and nothing has to be linked. */
#ifndef ARMUS_GUARD_H
#define ARMUS_GUARD_H
#include <pthread.h>
#ifdef __cplusplus
extern "C" {
#endif

extern void armus_guard_member(pthread_barrier_t *barrier) __attribute__((weak));

/* The current thread belongs to this barrier: it comes there in each turn. Once as many threads have said so as the barrier has parties, a wait there that would never end
 * is refused: pthread_barrier_wait gives EDEADLK, and the thread has not come. */
static inline void armus_member(pthread_barrier_t *barrier) {
    if (armus_guard_member != NULL) {
        armus_guard_member(barrier);
    }
}

#ifdef __cplusplus
}
#endif
#endif
