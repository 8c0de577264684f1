// A thread of the library's posts the semaphore when a message comes, which a child sends: the notice comes as without a recorder.
#include <fcntl.h>
#include <mqueue.h>
#include <semaphore.h>
#include <signal.h>
#include <stdio.h>
#include <string.h>
#include <sys/wait.h>
#include <unistd.h>

static sem_t came;

static void comes(union sigval nothing) {
    (void)nothing;
    sem_post(&came);
}

int main(void) {
    char name[40];
    struct mq_attr small = {.mq_maxmsg = 4, .mq_msgsize = 16};
    struct sigevent notice;
    sem_init(&came, 0, 0);
    snprintf(name, sizeof name, "/armus_%d", (int)getpid());
    mqd_t queue = mq_open(name, O_CREAT | O_RDWR, 0600, &small);
    if (queue == (mqd_t)-1) {
        puts("there are no message queues here");
        return 0;
    }
    mq_unlink(name);
    memset(&notice, 0, sizeof notice);
    notice.sigev_notify = SIGEV_THREAD;
    notice.sigev_notify_function = comes;
    mq_notify(queue, &notice);
    if (fork() == 0) {
        usleep(400000);
        mq_send(queue, "x", 1, 0);
        _exit(0);
    }
    sem_wait(&came);
    wait(NULL);
    puts("a message came");
    return 0;
}
