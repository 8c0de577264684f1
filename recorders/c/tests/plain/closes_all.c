/* Comes to its end: closes all files behind the first three, as a daemon does, opens one of its own under the first free number, and meets a late thread. */
#include <fcntl.h>
#include <pthread.h>
#include <stdio.h>
#include <unistd.h>

static pthread_barrier_t met;

static void *comes_late(void *word) {
    usleep(400000);
    pthread_barrier_wait(&met);
    return word;
}

int main(void) {
    char text[64] = "";
    char name[] = "/tmp/closes-all-XXXXXX";
    pthread_t t;
    pthread_barrier_init(&met, NULL, 2);
    pthread_create(&t, NULL, comes_late, NULL);
    usleep(200000);
    for (int f = 3; f < 100000; f++) {
        close(f);
    }
    int first = open("/dev/zero", O_RDONLY);
    unlink(name);
    int own = open(name, O_RDWR | O_CREAT, 0600);
    for (int f = own + 1; f < 70000; f++) {
        dup2(own, f);
    }
    pthread_barrier_wait(&met);
    pthread_join(t, NULL);
    unlink(name);
    printf("%d %d %ld '%s'\n", first, own, (long)lseek(own, 0, SEEK_END), pread(own, text, sizeof text - 1, 0) > 0 ? text : "");
}
