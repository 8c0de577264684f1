/* No deadlock: barriers at which nobody says who belongs, with other threads in each turn, and with members that come and end. */
#include <pthread.h>
#include <stdio.h>
#include "armus_guard.h"
static pthread_barrier_t unsaid, changing, all;
static pthread_mutex_t account = PTHREAD_MUTEX_INITIALIZER;

struct meeting { pthread_barrier_t *at; int says, turns; };

static void *meet(void *word) {
    struct meeting *m = word;
    if (m->says) {
        armus_member(m->at);
    }
    for (int i = 0; i < m->turns; i++) {
        pthread_mutex_lock(&account);
        pthread_mutex_unlock(&account);
        int result = pthread_barrier_wait(m->at);
        if (result != 0 && result != PTHREAD_BARRIER_SERIAL_THREAD) {
            printf("result %d\n", result);
        }
    }
    return NULL;
}

static void pair(struct meeting one, struct meeting two) {
    pthread_t threads[2];
    pthread_create(&threads[0], NULL, meet, &one);
    pthread_create(&threads[1], NULL, meet, &two);
    pthread_join(threads[0], NULL);
    pthread_join(threads[1], NULL);
}

int main(void) {
    pthread_barrier_init(&unsaid, NULL, 2);
    pthread_barrier_init(&changing, NULL, 2);
    for (int i = 0; i < 5; i++) {
        pair((struct meeting){&unsaid, 0, 3}, (struct meeting){&unsaid, 0, 3});
        pair((struct meeting){&changing, 1, 1}, (struct meeting){&changing, 0, 1});
        pthread_barrier_init(&all, NULL, 2);
        pair((struct meeting){&all, 1, 50}, (struct meeting){&all, 1, 50});
        pair((struct meeting){&all, 1, 2}, (struct meeting){&all, 1, 2});
        pair((struct meeting){&all, 0, 2}, (struct meeting){&all, 0, 2});
        pthread_barrier_destroy(&all);
    }
    puts("end");
}
