/* One thread comes to the barrier with a mutex that the other one needs before it comes there. */
#include <pthread.h>
#include <unistd.h>

static pthread_barrier_t meet;
static pthread_mutex_t account = PTHREAD_MUTEX_INITIALIZER;

static void *come(void *word) {
    pthread_mutex_lock(&account);
    pthread_barrier_wait(&meet);
    pthread_mutex_unlock(&account);
    return word;
}

int main(void) {
    pthread_t holder, needer;
    pthread_barrier_init(&meet, NULL, 2);
    pthread_create(&holder, NULL, come, NULL);
    usleep(100000);
    pthread_create(&needer, NULL, come, NULL);
    pthread_join(holder, NULL);
    pthread_join(needer, NULL);
}
