/* A program that a number decides: threads that do what it says at barriers, mutexes, a read-write lock, a semaphore and a condition. Each says when it has ended. */
#include <pthread.h>
#include <semaphore.h>
#include <stdio.h>
#include <stdlib.h>
#include <sys/prctl.h>
#include <unistd.h>

enum { STEPS = 4, OBJECTS = 3 };
enum verb { MEETS, LOCKS, READS, WRITES, TAKES, POSTS, WAITS, SIGNALS, VERBS };

struct thread {
    char name[16];
    int steps, verb[STEPS], which[STEPS], pauses[STEPS];
};

static pthread_barrier_t b[OBJECTS];
static pthread_mutex_t m[OBJECTS];
static pthread_rwlock_t both;
static sem_t free_ones;
static pthread_mutex_t of_flag = PTHREAD_MUTEX_INITIALIZER;
static pthread_cond_t changed = PTHREAD_COND_INITIALIZER;
static int flag;

static void say(const char *name, const char *verb) {
    char line[40];
    int n = snprintf(line, sizeof line, "%s %s\n", name, verb);
    if (write(1, line, (size_t)n) != n) {
        _exit(1);
    }
}

static void waits_for_flag(void) {
    pthread_mutex_lock(&of_flag);
    while (!flag) {
        pthread_cond_wait(&changed, &of_flag);
    }
    pthread_mutex_unlock(&of_flag);
}

static void sets_flag(void) {
    pthread_mutex_lock(&of_flag);
    flag = 1;
    pthread_cond_broadcast(&changed);
    pthread_mutex_unlock(&of_flag);
}

/* What the thread does from this step on; what it locks it gives back behind the last step. */
static void acts(const struct thread *own, int step) {
    if (step == own->steps) {
        return;
    }
    int which = own->which[step];
    usleep((unsigned)own->pauses[step] * 1000);
    switch ((enum verb)own->verb[step]) {
    case MEETS:
        pthread_barrier_wait(&b[which]);
        break;
    case LOCKS:
        pthread_mutex_lock(&m[which]);
        acts(own, step + 1);
        pthread_mutex_unlock(&m[which]);
        return;
    case READS:
        if (pthread_rwlock_rdlock(&both) == 0) {
            acts(own, step + 1);
            pthread_rwlock_unlock(&both);
            return;
        }
        break;                                      /* its own writer */
    case WRITES:
        if (pthread_rwlock_wrlock(&both) == 0) {
            acts(own, step + 1);
            pthread_rwlock_unlock(&both);
            return;
        }
        break;                                      /* its own */
    case TAKES:
        sem_wait(&free_ones);
        break;
    case POSTS:
        sem_post(&free_ones);
        break;
    case WAITS:
        waits_for_flag();
        break;
    default:
        sets_flag();
    }
    acts(own, step + 1);
}

static void *work(void *word) {
    struct thread *own = word;
    prctl(PR_SET_NAME, own->name);
    acts(own, 0);
    say(own->name, "ended");
    return NULL;
}

int main(int count, char **words) {
    static struct thread threads[5];
    static const int likely[] = {MEETS, MEETS, LOCKS, LOCKS, LOCKS, LOCKS, LOCKS, READS, WRITES, TAKES, POSTS, WAITS, SIGNALS, SIGNALS};
    pthread_t made[5];
    srand(count > 1 ? (unsigned)atoi(words[1]) : 0);
    for (int i = 0; i < OBJECTS; i++) {
        pthread_barrier_init(&b[i], NULL, (unsigned)(1 + rand() % 3));
        pthread_mutex_init(&m[i], NULL);
    }
    pthread_rwlock_init(&both, NULL);
    sem_init(&free_ones, 0, 1);
    int many = 2 + rand() % 4;
    for (int i = 0; i < many; i++) {
        snprintf(threads[i].name, sizeof threads[i].name, "worker-%c", 'a' + i);
        threads[i].steps = 1 + rand() % STEPS;
        for (int n = 0; n < STEPS; n++) {
            threads[i].verb[n] = likely[(unsigned)rand() % (sizeof likely / sizeof likely[0])];
            threads[i].which[n] = rand() % OBJECTS;
            threads[i].pauses[n] = rand() % 10;
        }
    }
    for (int i = 0; i < many; i++) {
        say(threads[i].name, "begins");
        pthread_create(&made[i], NULL, work, &threads[i]);
    }
    for (int i = 0; i < many; i++) {
        pthread_join(made[i], NULL);
    }
}
