/* Eight threads take two of six mutexes in rising order, sometimes wait at a condition with a limit, and meet in two groups of four: no deadlock. */
#include <pthread.h>
#include <stdio.h>
#include <time.h>
#include <unistd.h>

static pthread_mutex_t m[6];
static pthread_barrier_t meet[2];
static pthread_cond_t c = PTHREAD_COND_INITIALIZER;

static void pause_at(pthread_mutex_t *held) {
    struct timespec t;
    clock_gettime(CLOCK_REALTIME, &t);
    t.tv_nsec += 50000;
    if (t.tv_nsec > 999999999) {
        t.tv_sec++;
        t.tv_nsec -= 1000000000;
    }
    pthread_cond_timedwait(&c, held, &t);
}

static void *work(void *number) {
    unsigned r = (unsigned)(long)number * 7919u + 1;
    for (int i = 0; i < 500; i++) {
        r = r * 1103515245u + 12345;
        int p = (int)(r >> 16) % 6, q = (int)(r >> 20) % 6, low = p < q ? p : q, high = p < q ? q : p;
        pthread_mutex_lock(&m[low]);
        if (low != high) {
            pthread_mutex_lock(&m[high]);
            if (r & 2048) {
                usleep(10);
            }
            pthread_mutex_unlock(&m[high]);
        } else if (low == 0) {
            pause_at(&m[0]);
        }
        pthread_mutex_unlock(&m[low]);
        if (i % 50 == 49) {
            pthread_barrier_wait(&meet[(long)number % 2]);
        }
    }
    return NULL;
}

int main(void) {
    pthread_t t[8];
    for (int i = 0; i < 6; i++) {
        pthread_mutex_init(&m[i], NULL);
    }
    for (int i = 0; i < 2; i++) {
        pthread_barrier_init(&meet[i], NULL, 4);
    }
    for (long i = 0; i < 8; i++) {
        pthread_create(&t[i], NULL, work, (void *)i);
    }
    for (int i = 0; i < 8; i++) {
        pthread_join(t[i], NULL);
    }
    puts("end");
}
