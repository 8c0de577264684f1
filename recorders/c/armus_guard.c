/* The guard of C and C++ programs on Linux: a library that is loaded before the program's own by armus-run --guard. A thread that has to wait for a mutex, for a thread's
 * end, or at a barrier whose members are known, asks before it waits. Where its wait would never end the call gives EDEADLK.
 *
 * A free mutex is taken and given back without a lock of the guard and without a line. Whoever finds a mutex taken counts itself in `contended`, and looks at the mutex again
 * behind that; whoever takes one or gives one back looks at `contended` behind that. So of the two at least one sees the other.
 *
 * All lines and all of what the guard knows stand under one lock, `order`. While a thread has it no signal comes, and it neither waits for an answer nor calls what is the
 * program's. */
#define _GNU_SOURCE
#include <dlfcn.h>
#include <elf.h>
#include <errno.h>
#include <fcntl.h>
#include <limits.h>
#include <linux/futex.h>
#include <pthread.h>
#include <sched.h>
#include <signal.h>
#include <stdarg.h>
#include <stdatomic.h>
#include <stdbool.h>
#include <stdint.h>
#include <stdio.h>
#include <stdlib.h>
#include <string.h>
#include <sys/resource.h>
#include <sys/socket.h>
#include <sys/stat.h>
#include <sys/syscall.h>
#include <sys/uio.h>
#include <sys/un.h>
#include <threads.h>
#include <time.h>
#include <unistd.h>
#include "armus_file.h"

enum { TASKS = 65536, KEEPERS = 1024, BARRIERS = 1024, OF_TASK = 16, LINE = 512, PLACE = 260, SECONDS = 10 };
enum { AT_ONCE = 60000 };               /* so many nanoseconds an answer is looked for, before the thread sleeps until it comes */

/* A thread, as the monitor knows it. */
struct task {
    unsigned number;                    /* 0 is main */
    _Atomic(pid_t) tid;
    pthread_t handle;
    _Atomic(unsigned) asked, answered, wanted;   /* wait lines that were written, answers that came, the one for which the thread waits */
    unsigned refused;                   /* the newest question that was refused */
    bool waits, inside, ended, has_handle, has_untold;
    struct keeper *keeper;              /* where it waits for a mutex */
    unsigned turn;                      /* of the keeper, at its question */
    struct task *next;                  /* of those that wait there; of those that are free */
    struct barrier *barriers[OF_TASK];  /* to which it belongs */
    const void *refused_mutex[OF_TASK]; /* those that it was refused and has not taken since */
    unsigned refused_mutexes;
    const pthread_mutex_t *untold[OF_TASK];      /* those that it has taken while others wait for them: told as soon as it waits itself */
    int iteration;                      /* of the destructors of its own values */
    char place[PLACE];
};

/* A mutex for which threads wait, and the one that has to give it back, whose part a wildcard plays. */
struct keeper { const pthread_mutex_t *mutex; unsigned number, turn, count; struct task *holder, *first; };

/* A barrier, its parties, and those that said that they belong there. */
struct barrier { const pthread_barrier_t *key; unsigned parties, number, generation, turn, known, come; struct task **members; bool *came; unsigned came_by_others; struct barrier *next; };

static struct task *tasks[TASKS], *free_tasks, first_task;
static struct keeper keepers[KEEPERS];
static struct barrier *barriers[BARRIERS];
static unsigned task_numbers, keeper_numbers, barrier_numbers;
static _Atomic(unsigned) contended;
static pthread_t reader;
static _Atomic(bool) reads;             /* there is a reader that nobody has joined */
static _Atomic(bool) main_has_left;     /* by pthread_exit, so that the last thread ends the process */
static _Atomic(int) living;             /* tasks that have not ended */
static _Atomic(int) state = -1;         /* -1 not begun, 0 off, 1 on */
static _Atomic(unsigned) order;         /* 0 free, 1 taken, 2 taken and somebody waits */
static __thread struct task *mine __attribute__((tls_model("initial-exec")));
static pthread_key_t end_key;
static int out = -1;
static struct stat out_stat;
static pid_t process;
static bool was_told;                   /* a program that does not look at the result */

/* ---- the functions of the libraries behind this one */
#define REAL(result, name, ...) \
    static result (*_Atomic real_##name##_found)(__VA_ARGS__); \
    static inline result (*real_##name(void))(__VA_ARGS__) { \
        result (*found)(__VA_ARGS__) = atomic_load_explicit(&real_##name##_found, memory_order_relaxed); \
        if (found == NULL) { \
            found = (result (*)(__VA_ARGS__))behind(#name); \
            atomic_store_explicit(&real_##name##_found, found, memory_order_relaxed); \
        } \
        return found; \
    } \
    __attribute__((constructor)) static void find_##name(void) { real_##name(); }     /* later the loader may let a thread wait that asks */

static void *behind(const char *name) {
    void *found = strncmp(name, "pthread_cond_", 13) == 0 ? dlvsym(RTLD_NEXT, name, "GLIBC_2.3.2") : NULL;    /* x86: the default is not the oldest version */
    return found != NULL ? found : dlsym(RTLD_NEXT, name);
}

REAL(int, pthread_create, pthread_t *, const pthread_attr_t *, void *(*)(void *), void *)
REAL(int, pthread_join, pthread_t, void **)
REAL(int, pthread_barrier_init, pthread_barrier_t *, const pthread_barrierattr_t *, unsigned)
REAL(int, pthread_barrier_destroy, pthread_barrier_t *)
REAL(int, pthread_barrier_wait, pthread_barrier_t *)
REAL(int, pthread_mutex_lock, pthread_mutex_t *)
REAL(int, pthread_mutex_trylock, pthread_mutex_t *)
REAL(int, pthread_mutex_timedlock, pthread_mutex_t *, const struct timespec *)
REAL(int, pthread_mutex_unlock, pthread_mutex_t *)
REAL(int, pthread_cond_wait, pthread_cond_t *, pthread_mutex_t *)
REAL(int, pthread_cond_timedwait, pthread_cond_t *, pthread_mutex_t *, const struct timespec *)
REAL(int, thrd_create, thrd_t *, thrd_start_t, void *)
REAL(int, thrd_join, thrd_t, int *)

/* ---- the order */
typedef uint64_t signals;
static void futex_wait(_Atomic(unsigned) *at, unsigned value, const struct timespec *limit) { syscall(SYS_futex, at, FUTEX_WAIT_PRIVATE, value, limit, NULL, 0); }
static void futex_wake(_Atomic(unsigned) *at) { syscall(SYS_futex, at, FUTEX_WAKE_PRIVATE, INT_MAX, NULL, NULL, 0); }

static signals order_begins(void) {
    signals every = ~(signals)0, own = 0;
    int saved = errno;
    unsigned seen = 0;
    syscall(SYS_rt_sigprocmask, SIG_SETMASK, &every, &own, sizeof own);
    if (!atomic_compare_exchange_strong(&order, &seen, 1)) {
        while (atomic_exchange(&order, 2) != 0) {
            futex_wait(&order, 2, NULL);
        }
    }
    errno = saved;
    return own;
}

static void order_ends(signals own) {
    int saved = errno;
    if (atomic_exchange(&order, 0) == 2) {
        futex_wake(&order);
    }
    syscall(SYS_rt_sigprocmask, SIG_SETMASK, &own, NULL, sizeof own);
    errno = saved;
}

/* ---- lines, under the order */
static char text[1 << 16];
static size_t length;

static void tell(const char *form, ...) {
    char line[LINE];
    va_list words;
    va_start(words, form);
    int n = vsnprintf(line, sizeof line, form, words);
    va_end(words);
    if (n > 0 && n < LINE) {
        syscall(SYS_write, 2, line, (size_t)n);                /* no cancellation point */
    }
}

static bool is_own_file(void) {
    struct stat now;
    return out >= 0 && fstat(out, &now) == 0 && now.st_ino == out_stat.st_ino && now.st_dev == out_stat.st_dev;   /* the program may have closed it and opened another */
}

/* Nothing is asked any more: everybody may wait. */
static void turns_off(const char *why) {
    if (atomic_exchange(&state, 0) == 1) {
        if (why != NULL) {
            if (is_own_file()) {
                syscall(SYS_sendto, out, "# off\n", 6, MSG_DONTWAIT | MSG_NOSIGNAL, NULL, 0);
            }
            tell("armus: %s: from now on every wait of process %d is let through\n", why, (int)process);
        }
        for (unsigned i = 0; i < TASKS; i++) {
            if (tasks[i] != NULL) {
                futex_wake(&tasks[i]->answered);
            }
        }
    }
}

static void hand_over(void) {
    if (length > 0 && atomic_load(&state) == 1 && (!is_own_file() || syscall(SYS_sendto, out, text, length, MSG_NOSIGNAL, NULL, 0) != (long)length)) {
        turns_off("a line could not be written");              /* not in the time that its socket has for it */
    }
    length = 0;
}

__attribute__((format(printf, 1, 2))) static void say(const char *form, ...) {
    va_list words;
    if (length > sizeof text - 2 * LINE) {
        hand_over();
    }
    va_start(words, form);
    int n = vsnprintf(text + length, LINE, form, words);
    va_end(words);
    if (n > 0 && n < LINE) {
        length += (size_t)n;
        text[length++] = '\n';
    }
}

/* What stands in front of a name: of main, and of the others. */
#define NAMED(t) (int)process, (t)->number == 0 ? "main" : "thread-", (t)->number == 0 ? "" : digits((t)->number)

static const char *digits(unsigned number) {
    static char texts[4][12];                                  /* a line has at most so many names */
    static unsigned next;
    char *to = texts[next++ % 4];
    snprintf(to, sizeof texts[0], "%u", number);
    return to;
}

static void ends_order(signals own) {
    hand_over();
    order_ends(own);
}

/* ---- places */
static bool read_memory(const void *from, void *to, size_t size) {
    struct iovec a = {to, size}, b = {(void *)(uintptr_t)from, size};
    return process_vm_readv(getpid(), &a, 1, &b, 1, 0) == (ssize_t)size;
}

static bool is_library_of_threads(const char *path) {
    static const char *const names[] = {"libstdc++", "libc.so", "libc++", "libpthread", "libarmus", "libgcc", "ld-linux", "libgomp"};
    const char *stroke = strrchr(path, '/'), *base = stroke != NULL ? stroke + 1 : path;
    for (unsigned i = 0; i < sizeof names / sizeof names[0]; i++) {
        if (strncmp(base, names[i], strlen(names[i])) == 0) {
            return true;
        }
    }
    return false;
}

static bool is_own_call(const void *at, Dl_info *info) {
    unsigned char before[6];
    return (uintptr_t)at > 4096 && file_of(at, info) && !is_library_of_threads(info->dli_fname) && read_memory((const char *)at - 6, before, 6)
        && (before[1] == 0xe8 || (before[4] == 0xff && (before[5] & 0xf8) == 0xd0) || (before[0] == 0xff && before[1] == 0x15));
}

static char program[200];

__attribute__((constructor)) static void find_program(void) {
    ssize_t n = readlink("/proc/self/exe", program, sizeof program - 1);
    program[n > 0 ? n : 0] = 0;
}

/* Whether the program has C++ in it, where a call may stand in a function of a header. */
static bool has_headers;

__attribute__((constructor)) static void find_headers(void) {
    has_headers = dlsym(RTLD_DEFAULT, "_ZSt9terminatev") != NULL;
}

/* The address of the program's call; where that is one of a library of threads, or may be one of a header, those that stand on the stack too, the next one first. */
static void place_of(char *to, const void *from, const void *frame) {
    enum { CALLS = 6, WORDS = 128, FILE_SIZE = 1 << 28 };
    uintptr_t words[WORDS];
    const void *seen[CALLS];
    Dl_info info, found;
    unsigned n = 0, size = sizeof words;
    if (file_of(from, &info) && !is_library_of_threads(info.dli_fname)) {
        seen[n++] = from;
    }
    bool searches = n == 0 || has_headers;
    while (searches && size >= 256 && !read_memory((const char *)frame + 16, words, size)) {
        size /= 2;                                             /* the stack ends before */
    }
    for (unsigned i = 0; searches && i < size / sizeof words[0] && n < CALLS; i++) {
        if (n > 0 && words[i] - (uintptr_t)info.dli_fbase >= FILE_SIZE) {
            continue;
        }
        if (is_own_call((const void *)words[i], &found) && (n == 0 || found.dli_fbase == info.dli_fbase)) {
            info = found;
            seen[n++] = (const void *)words[i];
        }
    }
    if (n == 0) {
        snprintf(to, PLACE, "%s", program);
        return;
    }
    bool fixed = ((const Elf64_Ehdr *)info.dli_fbase)->e_type == ET_EXEC;
    int k = snprintf(to, PLACE, "%.190s", info.dli_fname[0] == '/' ? info.dli_fname : program);
    for (unsigned i = 0; i < n; i++) {
        k += snprintf(to + k, (size_t)(PLACE - k), "%c%#lx", i == 0 ? '+' : ',', (unsigned long)((uintptr_t)seen[i] - 1 - (fixed ? 0 : (uintptr_t)info.dli_fbase)));
    }
}

/* ---- tasks, under the order */
static struct task *new_task(void) {
    struct task *t = free_tasks;
    if (t != NULL) {
        free_tasks = t->next;
        memset(t, 0, sizeof *t);
    } else if ((t = calloc(1, sizeof *t)) == NULL) {
        return NULL;
    }
    for (unsigned i = 0; i < TASKS; i++) {
        t->number = ++task_numbers;
        if (tasks[t->number % TASKS] == NULL) {
            tasks[t->number % TASKS] = t;
            return t;
        }
    }
    t->next = free_tasks;
    free_tasks = t;
    return NULL;
}

static struct task *task_of_tid(pid_t tid) {
    for (unsigned i = 0, last = task_numbers < TASKS ? task_numbers : TASKS - 1; tid != 0 && i <= last; i++) {
        if (tasks[i] != NULL && atomic_load(&tasks[i]->tid) == tid) {
            return tasks[i];
        }
    }
    return NULL;
}

static struct task *task_of_handle(pthread_t handle) {
    for (unsigned i = 0, last = task_numbers < TASKS ? task_numbers : TASKS - 1; i <= last; i++) {
        if (tasks[i] != NULL && tasks[i]->has_handle && tasks[i]->handle == handle) {
            return tasks[i];
        }
    }
    return NULL;
}

static bool awaits_answer(const struct task *t) { return atomic_load(&t->answered) < atomic_load(&t->wanted) && atomic_load(&state) == 1; }

static void goes_on(struct task *t) {
    if (t->waits) {
        t->waits = false;
        say("%d/%s%s go", NAMED(t));
    }
}

static void tells_untold(struct task *t);

/* The question of a task for a phase of a phaser, whose name begins with the process too. */
__attribute__((format(printf, 3, 4))) static void question(struct task *t, unsigned phase, const char *form, ...) {
    char phaser[80];
    va_list words;
    va_start(words, form);
    vsnprintf(phaser, sizeof phaser, form, words);
    va_end(words);
    tells_untold(t);
    t->waits = true;
    atomic_fetch_add(&t->asked, 1);
    say("%d/%s%s wait %d/%s %u @%s", NAMED(t), (int)process, phaser, phase, t->place);
}

/* Looks for an answer that comes at once, where another processor may bring it. */
static void looks_at_once(const struct task *t, const struct timespec *begun) {
    static _Atomic(long) processors;
    struct timespec now = *begun;
    if (atomic_load_explicit(&processors, memory_order_relaxed) == 0) {
        atomic_store_explicit(&processors, sysconf(_SC_NPROCESSORS_ONLN), memory_order_relaxed);
    }
    while (processors > 1 && awaits_answer(t) && (now.tv_sec - begun->tv_sec) * 1000000000L + now.tv_nsec - begun->tv_nsec < AT_ONCE) {
        for (int i = 0; i < 50 && awaits_answer(t); i++) {
            atomic_signal_fence(memory_order_seq_cst);
        }
        clock_gettime(CLOCK_MONOTONIC, &now);
    }
}

/* The answer to the own question, without the order: false where it was refused. */
static bool may_wait(struct task *t) {
    struct timespec now, end;
    int saved = errno;
    clock_gettime(CLOCK_MONOTONIC, &end);
    looks_at_once(t, &end);
    end.tv_sec += SECONDS;
    while (awaits_answer(t)) {
        clock_gettime(CLOCK_MONOTONIC, &now);
        struct timespec left = {end.tv_sec - now.tv_sec, end.tv_nsec - now.tv_nsec};
        if (left.tv_nsec < 0) {
            left = (struct timespec){left.tv_sec - 1, left.tv_nsec + 1000000000L};
        }
        if (left.tv_sec < 0) {
            turns_off("no answer came in 10 seconds");
            break;
        }
        unsigned answered = atomic_load(&t->answered);
        if (answered < atomic_load(&t->wanted)) {
            futex_wait(&t->answered, answered, &left);
        }
    }
    errno = saved;
    if (t->refused == atomic_load(&t->wanted) && t->refused != 0 && atomic_load(&t->answered) >= t->refused) {
        t->waits = false;
        return false;
    }
    return true;
}

/* ---- keepers, under the order */
static struct keeper *keeper_of(const pthread_mutex_t *m, bool makes) {
    unsigned h = (unsigned)(((uintptr_t)m >> 4) * 2654435761u) % KEEPERS;
    struct keeper *unused = NULL;
    for (unsigned i = 0; i < KEEPERS; i++, h = (h + 1) % KEEPERS) {
        struct keeper *k = &keepers[h];
        if (k->mutex == m) {
            return k;
        }
        unused = unused == NULL && k->count == 0 ? k : unused;
        if (k->number == 0) {
            break;
        }
    }
    if (!makes || unused == NULL) {
        return NULL;
    }
    *unused = (struct keeper){.mutex = m, .number = ++keeper_numbers};
    return unused;
}

static void is_free(struct keeper *k) {
    if (k->holder != NULL) {
        say("%d/?mutex-%u.%u end", (int)process, k->number, k->turn);
        k->holder = NULL;
    }
}

/* From now on this one has to give it back. */
static void is_held_by(struct keeper *k, struct task *holder) {
    is_free(k);
    k->turn++;
    k->holder = holder;
    say("%d/?mutex-%u.%u of %d/%s%s", (int)process, k->number, k->turn, NAMED(holder));
    say("%d/?mutex-%u.%u join %d/mutex-%u.%u 0", (int)process, k->number, k->turn, (int)process, k->number, k->turn);
}

static void asks_for(struct task *t, struct keeper *k) {
    question(t, 1, "mutex-%u.%u", k->number, k->turn);
    t->turn = k->turn;
}

/* The holder has it, and the others wait for this one, which runs, for the monitor too: none of these questions is refused. Whoever has no answer to its own question yet
 * looks again itself. */
static void is_told(struct keeper *k, struct task *holder) {
    if (k->holder != holder) {
        is_held_by(k, holder);
    }
    for (struct task *t = k->first; t != NULL; t = t->next) {
        if (!awaits_answer(t) && !(t->waits && t->turn == k->turn)) {
            goes_on(t);
            asks_for(t, k);
        }
    }
}

/* The current thread has taken it while others wait for it. As long as this thread runs nobody has to know that they wait for this one. */
static void is_taken_from(struct keeper *k, struct task *t) {
    for (unsigned i = 0; i < OF_TASK; i++) {
        if (t->untold[i] == NULL || t->untold[i] == k->mutex) {
            t->untold[i] = k->mutex;
            t->has_untold = true;
            return;
        }
    }
    is_told(k, t);
}

static void is_not_taken(const pthread_mutex_t *m, struct task *t) {
    t->has_untold = false;
    for (unsigned i = 0; i < OF_TASK; i++) {
        t->untold[i] = t->untold[i] == m ? NULL : t->untold[i];
        t->has_untold |= t->untold[i] != NULL;
    }
}

/* Before the question of a thread it is told who waits for it. */
static void tells_untold(struct task *t) {
    for (unsigned i = 0; i < OF_TASK; i++) {
        struct keeper *k = t->untold[i] != NULL ? keeper_of(t->untold[i], false) : NULL;
        t->untold[i] = NULL;
        if (k != NULL && k->count > 0) {
            is_told(k, t);
        }
    }
    t->has_untold = false;
}

/* ---- answers */
static void hand_out(const char *line) {
    bool refuses = strncmp(line, "refuse ", 7) == 0, faults = strncmp(line, "fault ", 6) == 0;
    const char *name = strchr(line, '/');
    unsigned number = 0;
    if (name == NULL || (strncmp(name, "/main", 5) != 0 && sscanf(name, "/thread-%u", &number) != 1)) {
        return;
    }
    signals own = order_begins();
    struct task *t = tasks[number % TASKS];
    if (t != NULL && t->number == number) {
        unsigned now = atomic_load(&t->answered) + 1;
        if (refuses) {
            t->refused = now;
        } else if (faults) {
            t->waits = false;                                  /* it waits, unseen */
        }
        atomic_store(&t->answered, now);
        if (now == atomic_load(&t->wanted)) {
            futex_wake(&t->answered);
        }
    }
    order_ends(own);
}

static void *read_answers(void *nothing) {
    static char kept[1 << 16];
    size_t have = 0;
    bool was_said = false;
    ssize_t got;
    pthread_setname_np(pthread_self(), "armus");
    while (is_own_file() && have < sizeof kept - 1 && (got = recv(out, kept + have, sizeof kept - 1 - have, 0)) > 0) {
        char *line = kept, *end;
        have += (size_t)got;
        kept[have] = 0;
        while ((end = strchr(line, '\n')) != NULL) {
            *end = 0;
            was_said |= strcmp(line, "off") == 0;
            hand_out(line);
            line = end + 1;
        }
        have -= (size_t)(line - kept);
        memmove(kept, line, have);
    }
    signals own = order_begins();
    turns_off(was_said ? NULL : "no answer comes any more");
    order_ends(own);
    return nothing;
}

/* Where main has left by pthread_exit, glibc ends the process with its last thread. That must not be the one that reads, so it ends before. */
static void ends_reader_before_last(void) {
    if (!atomic_load(&main_has_left) || atomic_load(&living) != 0 || !atomic_exchange(&reads, false)) {
        return;
    }
    turns_off(NULL);
    if (is_own_file()) {
        shutdown(out, SHUT_RDWR);
    }
    real_pthread_join()(reader, NULL);
}

/* ---- begin */
static bool has_another_recorder(void) {
    char exe[512];
    ssize_t n = readlink("/proc/self/exe", exe, sizeof exe - 1);
    exe[n > 0 ? n : 0] = 0;
    const char *stroke = strrchr(exe, '/'), *base = stroke != NULL ? stroke + 1 : exe;
    return dlsym(RTLD_DEFAULT, "JNI_CreateJavaVM") != NULL || dlsym(RTLD_DEFAULT, "Py_IsInitialized") != NULL || strcmp(base, "java") == 0
        || dlsym(RTLD_DEFAULT, "MPI_Init") != NULL || strncmp(base, "orte", 4) == 0 || strncmp(base, "prte", 4) == 0 || strncmp(base, "hydra", 5) == 0;
}

static int connected(const char *path) {
    struct sockaddr_un to = {.sun_family = AF_UNIX};
    struct rlimit most;
    size_t n = strcspn(path, "|");
    int s = n < sizeof to.sun_path ? socket(AF_UNIX, SOCK_STREAM | SOCK_CLOEXEC, 0) : -1;
    if (s < 0) {
        return -1;
    }
    memcpy(to.sun_path, path, n);
    struct timeval limit = {SECONDS, 0};
    if (connect(s, (struct sockaddr *)&to, sizeof to) < 0 || setsockopt(s, SOL_SOCKET, SO_SNDTIMEO, &limit, sizeof limit) < 0) {
        close(s);
        return -1;
    }
    long high = getrlimit(RLIMIT_NOFILE, &most) == 0 && most.rlim_cur < 65536 ? (long)most.rlim_cur : 65536;
    int moved = fcntl(s, F_DUPFD_CLOEXEC, (int)(high - high / 16));   /* out of the way of the program's own */
    if (moved >= 0) {
        close(s);
    }
    return moved >= 0 ? moved : s;
}

static void thread_ends(void *task);

/* The process begins anew in a child, with one thread. */
static signals before_fork_signals;
static void before_fork(void) { before_fork_signals = order_begins(); }
static void behind_fork(void) { order_ends(before_fork_signals); }

static void in_child(void) {
    if (is_own_file()) {
        close(out);
    }
    out = -1;
    length = 0;
    memset(tasks, 0, sizeof tasks);
    memset(keepers, 0, sizeof keepers);
    memset(barriers, 0, sizeof barriers);
    memset(&first_task, 0, sizeof first_task);
    free_tasks = NULL;
    task_numbers = 0;
    atomic_store(&reads, false);
    atomic_store(&main_has_left, false);
    atomic_store(&living, 0);
    atomic_store(&contended, 0);
    mine = NULL;
    atomic_store(&state, -1);
    order_ends(before_fork_signals);
}

static void names_main(void) {
    if (syscall(SYS_gettid) == process) {
        mine = tasks[0] = &first_task;
        atomic_fetch_add(&living, 1);
        atomic_store(&mine->tid, process);
        mine->handle = pthread_self();
        mine->has_handle = true;
        say("%d/main join %d/end-of-main 0 @main", (int)process, (int)process);
        pthread_setspecific(end_key, mine);
    }
}

static bool reaches(void) {
    const char *path = getenv("ARMUS_SOCKET");
    return path != NULL && getenv("ARMUS_GUARD") != NULL && !has_another_recorder() && (out = connected(path)) >= 0 && fstat(out, &out_stat) == 0;
}

/* It takes no signal of the program's. */
static bool begins_reader(void) {
    sigset_t every, own;
    pthread_attr_t kept;
    sigfillset(&every);
    pthread_sigmask(SIG_SETMASK, &every, &own);
    pthread_attr_init(&kept);
    pthread_attr_setstacksize(&kept, 256 * 1024);
    bool begun = real_pthread_create()(&reader, &kept, read_answers, NULL) == 0;
    atomic_store(&reads, begun);
    pthread_attr_destroy(&kept);
    pthread_sigmask(SIG_SETMASK, &own, NULL);
    return begun;
}

static void begins(void) {
    static _Atomic(bool) handled;
    int saved = errno, not_begun = -1, cancels;
    if (!atomic_compare_exchange_strong(&state, &not_begun, 0)) {
        return;
    }
    pthread_setcancelstate(PTHREAD_CANCEL_DISABLE, &cancels);
    process = getpid();
    if (reaches() && begins_reader()) {
        if (!atomic_exchange(&handled, true)) {
            pthread_key_create(&end_key, thread_ends);
            pthread_atfork(before_fork, behind_fork, in_child);
        }
        signals own = order_begins();
        atomic_store(&state, 1);
        say("# process %d/", (int)process);
        names_main();
        ends_order(own);
    }
    pthread_setcancelstate(cancels, NULL);
    errno = saved;
}

/* The own task; nothing where the guard is off, for a thread that is not known, and inside of the guard. */
static struct task *enters(void) {
    if (__builtin_expect(atomic_load_explicit(&state, memory_order_relaxed) < 0, 0)) {
        begins();
    }
    struct task *t = mine;
    if (atomic_load_explicit(&state, memory_order_relaxed) != 1 || t == NULL || t->inside || t->waits || t->ended) {
        return NULL;
    }
    t->inside = true;
    return t;
}

static void leaves(struct task *t) {
    if (t != NULL) {
        t->inside = false;
    }
}

static void is_over(void *task) {
    struct task *t = task;
    if (t != NULL && t->waits) {
        signals own = order_begins();
        goes_on(t);
        ends_order(own);
    }
}

/* ---- barriers, under the order */
static struct barrier **barrier_at(const pthread_barrier_t *key) {
    struct barrier **at = &barriers[((uintptr_t)key >> 3) % BARRIERS];
    while (*at != NULL && (*at)->key != key) {
        at = &(*at)->next;
    }
    return at;
}

static int index_in(const struct barrier *b, const struct task *t) {
    for (unsigned i = 0; i < b->known; i++) {
        if (b->members[i] == t) {
            return (int)i;
        }
    }
    return -1;
}

static bool are_known(const struct barrier *b) { return b->known == b->parties; }

static void says_left(struct task *t, struct barrier *b) {
    for (unsigned i = 0; i < OF_TASK; i++) {
        t->barriers[i] = t->barriers[i] == b ? NULL : t->barriers[i];
    }
}

/* Nobody is known any more. Those that wait there go on; the others stay members of a phaser at which nobody waits any more. */
static void is_unknown(struct barrier *b) {
    for (unsigned i = 0; i < b->known; i++) {
        struct task *t = b->members[i];
        if (t != NULL) {
            if (b->came[i] && !awaits_answer(t)) {
                goes_on(t);
            }
            if (!t->waits && !awaits_answer(t)) {
                say("%d/%s%s leave %d/barrier-%u.%u", NAMED(t), (int)process, b->number, b->generation);
            }
            says_left(t, b);
        }
    }
    b->known = b->come = b->came_by_others = b->turn = 0;
    b->generation++;
}

#define BARRIER(b) "barrier-%u.%u", (b)->number, (b)->generation

static void adds(struct barrier *b, struct task *t) {
    unsigned place = 0;
    while (place < OF_TASK && t->barriers[place] != NULL) {
        place++;
    }
    if (index_in(b, t) >= 0 || place == OF_TASK) {
        return;
    }
    if (are_known(b)) {
        bool has_place = index_in(b, NULL) >= 0;               /* of one that has ended */
        is_unknown(b);
        if (!has_place) {
            return;
        }
    }
    t->barriers[place] = b;
    b->came[b->known] = false;
    b->members[b->known++] = t;
    say("%d/%s%s join %d/barrier-%u.%u %u", NAMED(t), (int)process, b->number, b->generation, b->turn);
    for (unsigned i = 0; i < b->known && are_known(b) && b->came_by_others == 0; i++) {    /* who waits there already waits for this one, which runs */
        if (b->came[i] && b->members[i] != NULL && !b->members[i]->waits) {
            question(b->members[i], b->turn + 1, BARRIER(b));
        }
    }
}

static void ends_turn(struct barrier *b) {
    bool all_came = true;
    for (unsigned i = 0; i < b->known; i++) {
        all_came &= b->came[i];
    }
    if (!all_came || (are_known(b) && b->came_by_others > 0)) {
        is_unknown(b);                                         /* another one came in the place of a member */
        return;
    }
    b->turn++;
    memset(b->came, 0, b->known * sizeof *b->came);
    b->come = b->came_by_others = 0;
}

/* A thread comes. True where it asks. */
static bool comes(struct barrier *b, struct task *t) {
    int i = index_in(b, t);
    if ((i < 0 && are_known(b)) || (i >= 0 && b->came[i])) {
        is_unknown(b);
        i = -1;
    }
    b->come++;
    if (i >= 0) {
        b->came[i] = true;
        say("%d/%s%s arrive %d/barrier-%u.%u", NAMED(t), (int)process, b->number, b->generation);
    } else {
        b->came_by_others++;
    }
    if (b->come == b->parties) {
        ends_turn(b);
        return false;
    }
    if (i >= 0 && are_known(b) && b->came_by_others == 0) {
        question(t, b->turn + 1, BARRIER(b));
        atomic_store(&t->wanted, atomic_load(&t->asked));
        return true;
    }
    return false;
}

/* A thread that was refused has not come. */
static void comes_not(struct barrier *b, struct task *t) {
    int i = index_in(b, t);
    if (i >= 0 && b->came[i]) {
        b->came[i] = false;
        b->come--;
        say("%d/%s%s leave %d/barrier-%u.%u", NAMED(t), (int)process, b->number, b->generation);
        say("%d/%s%s join %d/barrier-%u.%u %u", NAMED(t), (int)process, b->number, b->generation, b->turn);
    }
}

__attribute__((visibility("default"))) void armus_guard_member(pthread_barrier_t *key) {
    struct task *t = enters();
    if (t != NULL) {
        signals own = order_begins();
        struct barrier *b = *barrier_at(key);
        if (b != NULL) {
            adds(b, t);
        }
        ends_order(own);
        leaves(t);
    }
}

static struct barrier *new_barrier(const pthread_barrier_t *key, unsigned parties) {
    struct barrier *b = calloc(1, sizeof *b);
    if (b != NULL) {
        *b = (struct barrier){.key = key, .parties = parties, .members = calloc(parties, sizeof *b->members), .came = calloc(parties, sizeof *b->came)};
        if (b->members == NULL || b->came == NULL) {
            free(b->members);
            free(b->came);
            free(b);
            b = NULL;
        }
    }
    return b;
}

int pthread_barrier_init(pthread_barrier_t *key, const pthread_barrierattr_t *kept, unsigned parties) {
    int shared = PTHREAD_PROCESS_PRIVATE, result = real_pthread_barrier_init()(key, kept, parties);
    if (kept != NULL) {
        pthread_barrierattr_getpshared(kept, &shared);
    }
    struct barrier *b = result == 0 && shared == PTHREAD_PROCESS_PRIVATE && atomic_load(&state) != 0 ? new_barrier(key, parties) : NULL;
    signals own = order_begins();
    struct barrier **at = barrier_at(key), *old = *at;
    if (old != NULL) {                                         /* another one that had this address */
        is_unknown(old);
        *at = old->next;
    }
    if (b != NULL) {
        b->number = ++barrier_numbers;
        b->next = barriers[((uintptr_t)key >> 3) % BARRIERS];
        barriers[((uintptr_t)key >> 3) % BARRIERS] = b;
    }
    ends_order(own);
    if (old != NULL) {
        free(old->members);
        free(old->came);
        free(old);
    }
    return result;
}

int pthread_barrier_destroy(pthread_barrier_t *key) {
    signals own = order_begins();
    struct barrier **at = barrier_at(key), *old = *at;
    if (old != NULL) {
        is_unknown(old);
        *at = old->next;
    }
    ends_order(own);
    if (old != NULL) {
        free(old->members);
        free(old->came);
        free(old);
    }
    return real_pthread_barrier_destroy()(key);
}

#define HERE __builtin_extract_return_addr(__builtin_return_address(0)), __builtin_frame_address(0)

static void refused_at(struct task *t, const char *call) {
    if (!was_told) {
        was_told = true;
        tell("armus: %s gives EDEADLK to %s%s of process %d: a program that does not look at it goes on as if it had waited\n", call, t->number == 0 ? "main" : "thread-",
             t->number == 0 ? "" : digits(t->number), (int)process);
    }
}

static bool is_member_somewhere(const struct task *t) {
    bool found = false;
    for (unsigned i = 0; i < OF_TASK; i++) {
        found |= t->barriers[i] != NULL;
    }
    return found;
}

int pthread_barrier_wait(pthread_barrier_t *key) {
    struct task *t = enters();
    bool is_refused = false;
    if (t != NULL) {
        if (is_member_somewhere(t)) {
            place_of(t->place, HERE);
        }
        signals own = order_begins();
        struct barrier *b = *barrier_at(key);
        unsigned generation = b != NULL ? b->generation : 0, turn = b != NULL ? b->turn : 0;
        bool asks = b != NULL && comes(b, t);
        ends_order(own);
        if (asks) {
            is_refused = !may_wait(t);
            own = order_begins();
            b = *barrier_at(key);
            if (b == NULL || b->generation != generation) {    /* it is not known any more who has to come */
                goes_on(t);
                is_refused = false;
            } else if (is_refused && b->turn == turn) {
                comes_not(b, t);
                refused_at(t, "pthread_barrier_wait");
            } else {
                is_refused = false;
            }
            ends_order(own);
        }
    } else if (atomic_load(&state) == 1) {                     /* one that is not known comes */
        signals own = order_begins();
        struct barrier *b = *barrier_at(key);
        if (b != NULL) {
            is_unknown(b);
        }
        ends_order(own);
    }
    int result = is_refused ? EDEADLK : real_pthread_barrier_wait()(key);
    is_over(t);
    leaves(t);
    return result;
}

/* ---- threads */
struct start { void *(*function)(void *); thrd_start_t function_c11; void *word; struct task *task; };

/* As late as it can be: behind the destructors of the program's own values, of which there are some turns. */
static void tell_end(struct task *t) {
    signals own = order_begins();
    for (unsigned i = 0; i < OF_TASK; i++) {
        struct barrier *b = t->barriers[i];
        int at = b != NULL ? index_in(b, t) : -1;
        if (at >= 0 && are_known(b)) {
            b->members[at] = NULL;                             /* the others miss it */
        } else if (at >= 0) {
            b->members[at] = b->members[--b->known];
            b->came[at] = b->came[b->known];
            say("%d/%s%s leave %d/barrier-%u.%u", NAMED(t), (int)process, b->number, b->generation);
        }
    }
    for (unsigned i = 0; i < KEEPERS; i++) {
        keepers[i].holder = keepers[i].holder == t ? NULL : keepers[i].holder;     /* whoever waits there waits for one that has ended */
    }
    say("%d/%s%s leave %d/end-of-%s%s", NAMED(t), NAMED(t));
    say("%d/%s%s end", NAMED(t));
    t->ended = true;
    tasks[t->number % TASKS] = NULL;
    atomic_store(&t->tid, 0);
    if (t != &first_task) {
        t->next = free_tasks;
        free_tasks = t;
    }
    mine = NULL;
    ends_order(own);
}

static void thread_ends(void *task) {
    struct task *t = task;
    if (t != mine || t->ended) {
        return;
    }
    if (++t->iteration < PTHREAD_DESTRUCTOR_ITERATIONS) {
        pthread_setspecific(end_key, t);
        return;
    }
    bool is_main = t == &first_task;
    if (atomic_load(&state) == 1) {
        tell_end(t);
    }
    if (is_main) {
        atomic_store(&main_has_left, true);
    }
    atomic_fetch_sub(&living, 1);
    ends_reader_before_last();
}

static void takes_place(struct start *start) {
    signals own = order_begins();
    mine = start->task;
    mine->handle = pthread_self();
    mine->has_handle = true;
    atomic_store(&mine->tid, (pid_t)syscall(SYS_gettid));
    pthread_setspecific(end_key, mine);
    order_ends(own);
}

static void *run(void *word) {
    struct start start = *(struct start *)word;
    free(word);
    takes_place(&start);
    return start.function(start.word);
}

static int run_c11(void *word) {
    struct start start = *(struct start *)word;
    free(word);
    takes_place(&start);
    return start.function_c11(start.word);
}

/* A thread is named before it begins. */
static struct start *named_start(struct task *own_task, const void *from, const void *frame) {
    struct start *start = own_task != NULL ? calloc(1, sizeof *start) : NULL;
    if (start != NULL) {
        char place[PLACE];
        place_of(place, from, frame);
        signals own = order_begins();
        start->task = new_task();
        if (start->task != NULL) {
            atomic_fetch_add(&living, 1);
            say("%d/%s%s join %d/end-of-%s%s 0 @%s", NAMED(start->task), NAMED(start->task), place);
        }
        ends_order(own);
    }
    if (start != NULL && start->task == NULL) {
        free(start);
        start = NULL;
    }
    return start;
}

static void begins_not(struct start *start) {
    signals own = order_begins();
    struct task *t = start->task;
    say("%d/%s%s leave %d/end-of-%s%s", NAMED(t), NAMED(t));
    say("%d/%s%s end", NAMED(t));
    tasks[t->number % TASKS] = NULL;
    t->next = free_tasks;
    free_tasks = t;
    atomic_fetch_sub(&living, 1);
    ends_order(own);
    free(start);
}

/* The handle is known before anybody can join it: the new thread and the one that made it both write it. */
static void has_begun(unsigned number, pthread_t handle) {
    signals own = order_begins();
    struct task *t = tasks[number % TASKS];
    if (t != NULL && t->number == number) {
        t->handle = handle;
        t->has_handle = true;
    }
    order_ends(own);
}

#define CREATES(name, runs, field, succeeds) \
    struct task *t = enters(); \
    struct start *start = named_start(t, HERE); \
    int result; \
    if (start == NULL) { \
        result = PLAIN_##name; \
    } else { \
        unsigned number = start->task->number; \
        start->field = function; \
        start->word = word; \
        result = NAMED_##name(runs); \
        if (result == succeeds) { \
            has_begun(number, *to); \
        } else { \
            begins_not(start); \
        } \
    } \
    leaves(t); \
    return result
#define PLAIN_pthread_create real_pthread_create()(to, kept, function, word)
#define NAMED_pthread_create(runs) real_pthread_create()(to, kept, runs, start)
#define PLAIN_thrd_create real_thrd_create()(to, function, word)
#define NAMED_thrd_create(runs) real_thrd_create()(to, runs, start)
int pthread_create(pthread_t *to, const pthread_attr_t *kept, void *(*function)(void *), void *word) { CREATES(pthread_create, run, function, 0); }
int thrd_create(thrd_t *to, thrd_start_t function, void *word) { CREATES(thrd_create, run_c11, function_c11, thrd_success); }

static bool may_join(struct task *t, pthread_t thread, const void *from, const void *frame) {
    place_of(t->place, from, frame);
    signals own = order_begins();
    struct task *other = task_of_handle(thread);
    bool asks = other != NULL && other != t && !other->ended;
    if (asks) {
        question(t, 1, "end-of-%s%s", other->number == 0 ? "main" : "thread-", other->number == 0 ? "" : digits(other->number));
        atomic_store(&t->wanted, atomic_load(&t->asked));
    }
    ends_order(own);
    bool may = !asks || may_wait(t);
    if (!may) {
        own = order_begins();
        refused_at(t, "pthread_join");
        ends_order(own);
    }
    return may;
}

#define JOINS(name, refused, thread, to) \
    struct task *t = enters(); \
    int result = refused; \
    if (t == NULL || may_join(t, thread, HERE)) { \
        pthread_cleanup_push(is_over, t); \
        result = real_##name()(thread, to); \
        pthread_cleanup_pop(1); \
    } \
    leaves(t); \
    return result

int pthread_join(pthread_t thread, void **to) { JOINS(pthread_join, EDEADLK, thread, to); }
int thrd_join(thrd_t thread, int *to) { JOINS(thrd_join, thrd_error, thread, to); }

/* ---- mutexes */
static void leaves_keeper(struct task *t, struct keeper *k) {
    struct task **at = &k->first;
    while (*at != NULL && *at != t) {
        at = &(*at)->next;
    }
    if (*at == t) {
        *at = t->next;
        k->count--;
        atomic_fetch_sub(&contended, 1);
    }
    t->keeper = NULL;
    goes_on(t);
    if (k->count == 0) {
        is_free(k);
    }
}

static __attribute__((noinline)) void look_at_taken(const pthread_mutex_t *m) {
    struct task *t = mine;
    if (t != NULL && atomic_load(&state) == 1 && !t->ended) {
        signals own = order_begins();
        struct keeper *k = keeper_of(m, false);
        if (k != NULL && k->count > 0) {
            is_taken_from(k, t);
        }
        ends_order(own);
    }
}

static __attribute__((noinline)) void look_at_given_back(const pthread_mutex_t *m) {
    struct task *t = mine;
    if (t != NULL && atomic_load(&state) == 1) {
        signals own = order_begins();
        struct keeper *k = keeper_of(m, false);
        is_not_taken(m, t);
        if (k != NULL && k->holder == t) {
            is_free(k);
        }
        ends_order(own);
    }
}

static inline void is_taken(const pthread_mutex_t *m) {
    atomic_thread_fence(memory_order_seq_cst);
    if (__builtin_expect(atomic_load_explicit(&contended, memory_order_relaxed) != 0, 0)) {
        look_at_taken(m);
    }
}

static inline void is_given_back(const pthread_mutex_t *m) {
    atomic_thread_fence(memory_order_seq_cst);
    if (__builtin_expect(atomic_load_explicit(&contended, memory_order_relaxed) != 0 || (mine != NULL && mine->has_untold), 0)) {
        look_at_given_back(m);
    }
}

/* Of the sorts whose owner is known and is of this process. */
static bool has_owner(const pthread_mutex_t *m) { return m->__data.__kind >= 0 && m->__data.__kind <= 3; }

static void puts_refused(struct task *t, const void *before, const void *after) {
    for (unsigned i = 0; i < OF_TASK; i++) {
        if (t->refused_mutex[i] == before) {
            t->refused_mutex[i] = after;
            t->refused_mutexes += before == NULL ? 1 : -1u;
            return;
        }
    }
}

/* Registers the thread at the mutex. Gives EBUSY where it has to wait, and has asked where `asks` is set; else the mutex is taken, or never will be. */
static int registers(struct task *t, pthread_mutex_t *m, bool *asks) {
    *asks = false;
    tells_untold(t);                                           /* before the thread itself is one of those that wait */
    struct keeper *k = keeper_of(m, true);
    if (k == NULL) {
        return EBUSY;
    }
    atomic_fetch_add(&contended, 1);
    k->count++;
    t->next = k->first;
    k->first = t;
    t->keeper = k;
    atomic_thread_fence(memory_order_seq_cst);
    int result = EBUSY;
    pid_t owner = 0;
    for (int turns = 0; turns < 100 && result == EBUSY && owner == 0; turns++) {
        result = real_pthread_mutex_trylock()(m);
        owner = result == EBUSY ? __atomic_load_n(&m->__data.__owner, __ATOMIC_SEQ_CST) : 0;    /* 0: taken or given back at this moment */
        if (result == EBUSY && owner == 0) {
            sched_yield();
        }
    }
    struct task *holder = result == EBUSY ? task_of_tid(owner) : NULL;
    if (result != EBUSY) {
        leaves_keeper(t, k);
        if (k->count > 0) {
            is_taken_from(k, t);
        }
    } else if (holder != NULL) {
        if (k->holder != holder) {
            is_held_by(k, holder);
        }
        asks_for(t, k);
        atomic_store(&t->wanted, atomic_load(&t->asked));
        *asks = true;
    }
    return result;
}

/* Awaits the answer, and asks again where another thread has the mutex meanwhile. */
static bool may_take(struct task *t) {
    while (may_wait(t)) {
        signals own = order_begins();
        struct keeper *k = t->keeper;
        bool again = k != NULL && k->holder != NULL && t->waits && t->turn != k->turn && atomic_load(&state) == 1;
        if (again) {
            goes_on(t);
            asks_for(t, k);
            atomic_store(&t->wanted, atomic_load(&t->asked));
        }
        ends_order(own);
        if (!again) {
            return true;
        }
    }
    return false;
}

static __attribute__((noinline)) int waits_for_mutex(pthread_mutex_t *m, const void *from, const void *frame) {
    struct task *t = has_owner(m) ? enters() : NULL;
    bool asks;
    if (t == NULL || (m->__data.__kind == PTHREAD_MUTEX_ERRORCHECK && m->__data.__owner == atomic_load(&t->tid))) {
        leaves(t);
        int result = real_pthread_mutex_lock()(m);
        is_taken(m);
        return result;
    }
    place_of(t->place, from, frame);
    signals own = order_begins();
    int result = registers(t, m, &asks);
    ends_order(own);
    if (result == EBUSY) {
        result = !asks || may_take(t) ? real_pthread_mutex_lock()(m) : EDEADLK;
        own = order_begins();
        struct keeper *k = t->keeper;
        if (k != NULL) {
            leaves_keeper(t, k);
            if (result != EDEADLK && k->count > 0) {
                is_taken_from(k, t);
            }
        }
        ends_order(own);
    }
    puts_refused(t, m, NULL);
    if (result == EDEADLK) {
        puts_refused(t, NULL, m);
    }
    leaves(t);
    return result;
}

int pthread_mutex_lock(pthread_mutex_t *m) {
    int result = real_pthread_mutex_trylock()(m);
    if (__builtin_expect(result == EBUSY, 0)) {
        return waits_for_mutex(m, HERE);
    }
    is_taken(m);
    return result;
}

int pthread_mutex_trylock(pthread_mutex_t *m) {
    int result = real_pthread_mutex_trylock()(m);
    if (result == 0) {
        is_taken(m);
    }
    return result;
}

int pthread_mutex_timedlock(pthread_mutex_t *m, const struct timespec *limit) {
    int result = real_pthread_mutex_timedlock()(m, limit);
    if (result == 0) {
        is_taken(m);
    }
    return result;
}

/* Whether the current thread gives back a mutex that it was refused. */
static bool was_refused(const pthread_mutex_t *m) {
    struct task *t = mine;
    bool found = false;
    for (unsigned i = 0; i < OF_TASK; i++) {
        found |= t->refused_mutex[i] == m && m->__data.__owner != atomic_load(&t->tid);
    }
    if (found) {
        puts_refused(t, m, NULL);
    }
    return found;
}

int pthread_mutex_unlock(pthread_mutex_t *m) {
    if (mine != NULL && __builtin_expect(mine->refused_mutexes != 0, 0) && was_refused(m)) {
        if (!was_told) {
            was_told = true;
            tell("armus: a thread of process %d gives back a mutex that it was refused: it does not look at the result of pthread_mutex_lock\n", (int)process);
        }
        return EPERM;
    }
    int result = real_pthread_mutex_unlock()(m);
    is_given_back(m);
    return result;
}

/* A condition gives its mutex back, and takes it again. */
static void takes_again(void *m) { is_taken(m); }

#define CONDITION(call) \
    int result; \
    is_given_back(m); \
    pthread_cleanup_push(takes_again, m); \
    result = call; \
    pthread_cleanup_pop(1); \
    return result
int pthread_cond_wait(pthread_cond_t *c, pthread_mutex_t *m) { CONDITION(real_pthread_cond_wait()(c, m)); }
int pthread_cond_timedwait(pthread_cond_t *c, pthread_mutex_t *m, const struct timespec *limit) { CONDITION(real_pthread_cond_timedwait()(c, m, limit)); }

/* C11's are those of POSIX by other names, and so is what they give. */
int mtx_lock(mtx_t *m) {
    int result = pthread_mutex_lock((pthread_mutex_t *)m);
    return result == 0 ? thrd_success : thrd_error;
}

int mtx_unlock(mtx_t *m) {
    int result = pthread_mutex_unlock((pthread_mutex_t *)m);
    return result == 0 ? thrd_success : thrd_error;
}
