// Main leaves by pthread_exit, and one of the two threads that go on comes to the barrier of three.
#include <pthread.h>
#include <stddef.h>
#include <unistd.h>

static pthread_barrier_t three;

static void *comes(void *nothing) {
    pthread_barrier_wait(&three);
    return nothing;
}

static void *ends(void *nothing) {
    usleep(200000);
    return nothing;
}

int main(void) {
    pthread_t one, other;
    pthread_barrier_init(&three, NULL, 3);
    pthread_create(&one, NULL, comes, NULL);
    pthread_create(&other, NULL, ends, NULL);
    pthread_exit(NULL);
}
