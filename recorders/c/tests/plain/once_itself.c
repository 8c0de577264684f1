/* A routine that is called once calls the same once, in a program of one thread. */
#include <threads.h>

static once_flag flag = ONCE_FLAG_INIT;

static void again(void) {
    call_once(&flag, again);
}

int main(void) {
    call_once(&flag, again);
}
