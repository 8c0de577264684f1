/* Comes to its end: while a thread waits for main, children are made by fork, vfork, system and posix_spawn, and each becomes another program; so does this one at last. */
#define _GNU_SOURCE
#include <pthread.h>
#include <spawn.h>
#include <stdio.h>
#include <stdlib.h>
#include <sys/wait.h>
#include <unistd.h>

extern char **environ;
static pthread_barrier_t met;

static void *waits(void *word) {
    pthread_barrier_wait(&met);
    return word;
}

static void status_of(pid_t child) {
    int status = -1;
    waitpid(child, &status, 0);
    printf("%d\n", status);
    fflush(stdout);
}

int main(int count, char **words) {
    char *echo[] = {"echo", "spawned", NULL};
    pthread_t t;
    pid_t child;
    if (count > 1) {
        puts(words[1]);
        return 5;
    }
    pthread_barrier_init(&met, NULL, 2);
    pthread_create(&t, NULL, waits, NULL);
    usleep(200000);
    if ((child = fork()) == 0) {
        execlp("sh", "sh", "-c", "echo forked; exit 3", NULL);
    }
    status_of(child);
    if ((child = vfork()) == 0) {
        execlp("sh", "sh", "-c", "kill -TERM $$", NULL);
        _exit(1);
    }
    status_of(child);
    if ((child = fork()) == 0) {
        pthread_barrier_init(&met, NULL, 2);
        pthread_create(&t, NULL, waits, NULL);
        pthread_barrier_wait(&met);
        _exit(pthread_join(t, NULL) + 4);
    }
    status_of(child);
    posix_spawnp(&child, "echo", NULL, NULL, echo, environ);
    status_of(child);
    printf("%d\n", system("exit 6"));
    fflush(stdout);
    execl("/proc/self/exe", "execs", "end", NULL);
}
