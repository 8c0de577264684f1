/* The threads of C11: two take two mutexes in opposite order, and main waits for the end of one. */
#include <threads.h>

static mtx_t a, b;
static struct timespec moment = {0, 200000000};

static int lock(void *first) {
    mtx_lock(first);
    thrd_sleep(&moment, NULL);
    mtx_lock(first == &a ? &b : &a);
    return 0;
}

int main(void) {
    thrd_t one, other;
    mtx_init(&a, mtx_plain);
    mtx_init(&b, mtx_plain);
    thrd_create(&one, lock, &a);
    thrd_create(&other, lock, &b);
    return thrd_join(one, NULL);
}
