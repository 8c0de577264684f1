/* A program whose library has started threads before main begins, which deadlock; main waits for the end of one. */
#include <pthread.h>

extern pthread_t early[2];

int main(void) {
    pthread_join(early[0], NULL);
}
