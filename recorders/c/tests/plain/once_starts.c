/* Main's routine, which is called once, starts the program's first thread and waits for its end; that thread waits for the end of the routine. */
#include <pthread.h>

static pthread_once_t control = PTHREAD_ONCE_INIT;

static void routine(void);

static void *work(void *word) {
    pthread_once(&control, routine);
    return word;
}

static void routine(void) {
    pthread_t thread;
    pthread_create(&thread, NULL, work, NULL);
    pthread_join(thread, NULL);
}

int main(void) {
    pthread_once(&control, routine);
}
