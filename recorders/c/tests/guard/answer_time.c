/* How long a question of C takes: a thread that was cancelled joins another one. The join asks, gets its answer, and then ends the thread at once. */
#include <pthread.h>
#include <stdio.h>
#include <stdlib.h>
#include <time.h>
#include <unistd.h>
enum { TIMES = 3000 };
static pthread_t other;
static long begun, took[TIMES];

static long now(void) {
    struct timespec t;
    clock_gettime(CLOCK_MONOTONIC, &t);
    return t.tv_sec * 1000000000L + t.tv_nsec;
}

static void stops(void *at) { *(long *)at = now() - begun; }

static void *joins(void *at) {
    pthread_cancel(pthread_self());
    pthread_cleanup_push(stops, at);
    begun = now();
    pthread_join(other, NULL);
    pthread_cleanup_pop(0);
    return NULL;
}

static void *sleeps(void *nothing) {
    pause();
    return nothing;
}

static int by_size(const void *a, const void *b) { return *(const long *)a < *(const long *)b ? -1 : 1; }

int main(void) {
    pthread_create(&other, NULL, sleeps, NULL);
    for (int i = 0; i < TIMES; i++) {
        pthread_t asks;
        pthread_create(&asks, NULL, joins, &took[i]);
        pthread_join(asks, NULL);
    }
    qsort(took, TIMES, sizeof *took, by_size);
    printf("%ld %ld\n", took[0] / 100, took[TIMES / 2] / 100);
    exit(0);
}
