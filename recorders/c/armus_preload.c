/* The recorder of C and C++ programs on Linux: a library that is loaded before the program's own (LD_PRELOAD), so that nothing in the program changes. A thread that
 * may wait writes into its own slot for what and from where; a watcher looks at all slots every 50 ms, asks the kernel whether those threads sleep at what they say,
 * and announces who stood in the same wait at two looks. Seen are pthread barriers, joins, mutexes, read-write locks, conditions, semaphores, what is called once, the
 * teams, tasks and locks of GCC's OpenMP, and what waits at an address by syscall(SYS_futex), as std::barrier and std::latch do.
 *
 * The recorder takes no signal, holds no lock, has no cancellation point of its own, and begins with the program's first thread or first wait. */
#define _GNU_SOURCE
#include <dirent.h>
#include <dlfcn.h>
#include <elf.h>
#include <errno.h>
#include <fcntl.h>
#include <link.h>
#include <linux/futex.h>
#include <pthread.h>
#include <sched.h>
#include <semaphore.h>
#include <signal.h>
#include <stdarg.h>
#include <stdatomic.h>
#include <stdbool.h>
#include <stdint.h>
#include <stdio.h>
#include <stdlib.h>
#include <string.h>
#include <sys/mman.h>
#include <sys/resource.h>
#include <sys/socket.h>
#include <sys/stat.h>
#include <sys/syscall.h>
#include <sys/uio.h>
#include <sys/un.h>
#include <sys/vfs.h>
#include <threads.h>
#include <time.h>
#include <unistd.h>
#include "armus_file.h"

enum kind { BARRIER, JOIN, MUTEX, RWLOCK, CONDITION, SEMAPHORE, ONCE, CRITICAL, OMP_LOCK, TEAM, TEAM_END, TASKS, ORDERED, IDLE, ADDRESS, KINDS };
static const char *const kind_names[KINDS] = {"barrier", "end-of", "mutex", "rwlock", "condition", "semaphore", "once", "critical", "lock", "team", "team-end", "tasks", "ordered", "idle", "address"};
enum state { FREE, LIVE, ENDING };
enum { MQUEUE_MAGIC = 0x19800202 };       /* the file system of message queues */
enum { CHUNK = 256, CHUNKS = 256, OBJECTS = 4096, LINE = 512, NAME = 40, MILLISECOND = 1000000, PERIOD = 50, LONGEST = 1000 };

/* What a waiting thread says. The counter is odd while it waits; all else is written before the counter. */
struct wait {
    _Atomic(unsigned) count;
    _Atomic(int) kind;
    _Atomic(const void *) object;
    _Atomic(const void *) from;     /* where it was called */
    _Atomic(const void *) frame;
};

/* The team of OpenMP in which a thread is. */
struct place_in_team {
    _Atomic(unsigned) number, size, barriers;   /* 0: none; how many threads it has; the barriers that this thread came to */
    _Atomic(struct slot *) first;               /* the thread that made it */
    _Atomic(bool) at_end;
    const void *from;
};

struct slot {
    struct wait wait;
    struct place_in_team team;
    _Atomic(int) state;
    _Atomic(pid_t) tid;
    _Atomic(pthread_t) handle;
    const void *begins;             /* the function of the thread */
    unsigned number, index;         /* of the thread; of the slot */
    /* of the watcher alone */
    bool announced, foreign, stands, over;
    unsigned seen, told;            /* the counter at the last look; that of the wait that was announced, or 0 */
    int kind;
    const void *object;
    unsigned barriers, team_number;
    struct slot *owner;
    int group;                      /* the one of the announced wait, or -1 */
    char name[NAME], place[300];
};

/* The last threads that ended: one of them may have kept a mutex. */
enum { ENDED = 256 };
static struct { pid_t tid; char name[NAME]; } ended[ENDED];
static unsigned ended_count;

static struct slot *_Atomic chunks[CHUNKS];
static _Atomic(unsigned) thread_numbers, team_numbers;
#define OWN static __thread __attribute__((tls_model("initial-exec")))
OWN struct slot *mine;
struct once { void *control; void (*routine)(void); struct once *outer; };
OWN struct once *calls_once, *runs_once;    /* the call that this thread is in; the routine that it runs */
static _Atomic(int) active = -1;    /* -1 not begun, 0 off, 1 on */
static int out = -1;
static char address[256];
static struct stat out_stat;
static pid_t process, watcher_tid;
static pthread_t watcher;
static _Atomic(int) stopping;                                  /* 1 where the watcher is to end: a futex */
static _Atomic(bool) is_watched;                               /* there is a watcher that nobody has joined */
static _Atomic(bool) main_has_left;                            /* by pthread_exit, so that the last thread ends the process */
static _Atomic(int) living;                                    /* threads that were made here and have not ended */

/* ---- the functions of the libraries behind this one. They are looked for before the program begins: later that would wait for whoever loads a library, and its
 * constructor may wait for the thread that asks. */
#define UNBRACKETED(...) __VA_ARGS__
#define REAL(result, name, ...) \
    static result (*_Atomic real_##name##_found)(__VA_ARGS__); \
    static inline result (*real_##name(void))(__VA_ARGS__) { \
        result (*found)(__VA_ARGS__) = atomic_load_explicit(&real_##name##_found, memory_order_relaxed); \
        if (found == NULL) { \
            found = (result (*)(__VA_ARGS__))behind(#name); \
            atomic_store_explicit(&real_##name##_found, found, memory_order_relaxed); \
        } \
        return found; \
    } \
    __attribute__((constructor)) static void find_##name(void) { real_##name(); }

static void *behind(const char *name) {
    void *found = NULL;
    if (strncmp(name, "pthread_cond_", 13) == 0) {
        found = dlvsym(RTLD_NEXT, name, "GLIBC_2.3.2");      /* x86: the default is not the oldest version */
    }
    return found != NULL ? found : dlsym(RTLD_NEXT, name);
}

REAL(int, pthread_create, pthread_t *, const pthread_attr_t *, void *(*)(void *), void *)
REAL(int, pthread_join, pthread_t, void **)
REAL(void, pthread_exit, void *)
REAL(int, pthread_barrier_wait, pthread_barrier_t *)
REAL(int, pthread_mutex_lock, pthread_mutex_t *)
REAL(int, pthread_mutex_trylock, pthread_mutex_t *)
REAL(int, pthread_rwlock_rdlock, pthread_rwlock_t *)
REAL(int, pthread_rwlock_tryrdlock, pthread_rwlock_t *)
REAL(int, pthread_rwlock_wrlock, pthread_rwlock_t *)
REAL(int, pthread_rwlock_trywrlock, pthread_rwlock_t *)
REAL(int, pthread_cond_wait, pthread_cond_t *, pthread_mutex_t *)
REAL(int, sem_wait, sem_t *)
REAL(int, thrd_create, thrd_t *, thrd_start_t, void *)
REAL(void, thrd_exit, int)
REAL(int, thrd_join, thrd_t, int *)
REAL(int, mtx_lock, mtx_t *)
REAL(int, mtx_trylock, mtx_t *)
REAL(int, cnd_wait, cnd_t *, mtx_t *)
REAL(int, pthread_once, pthread_once_t *, void (*)(void))
REAL(void, call_once, once_flag *, void (*)(void))
REAL(int, dlclose, void *)

/* ---- the functions of OpenMP. A program that has none may load a library that has, at any time and for itself alone; two libraries may have one each. So whose function a
 * call is meant for is told by the place of the call: that of a library that its own library wants, or, where there is none, of any. */
enum { LIBRARIES = 1024, SITES = 512 };
struct library { ElfW(Addr) base; const ElfW(Dyn) *dynamic; const char *path; bool reached; };
struct search { const char *name; const void *from; void *found; int caller; };
struct site { const void *from; const char *name; void *found; struct site *next; };
static struct library libraries[LIBRARIES];     /* used by one thread at a time: the one that the loader lets look */
static int library_count;
static _Atomic(struct site *) sites[SITES];

static bool holds(const struct dl_phdr_info *info, const void *address) {
    bool found = false;
    for (int i = 0; i < info->dlpi_phnum; i++) {
        const ElfW(Phdr) *part = &info->dlpi_phdr[i];
        found |= part->p_type == PT_LOAD && (uintptr_t)address - (info->dlpi_addr + part->p_vaddr) < part->p_memsz;
    }
    return found;
}

static int list_library(struct dl_phdr_info *info, size_t size, void *word) {
    struct search *search = word;
    struct library *one = &libraries[library_count];
    (void)size;
    if (library_count == LIBRARIES || holds(info, sites)) {
        return 0;                                              /* not the recorder itself */
    }
    *one = (struct library){.base = info->dlpi_addr, .path = info->dlpi_name};
    for (int i = 0; i < info->dlpi_phnum; i++) {
        if (info->dlpi_phdr[i].p_type == PT_DYNAMIC) {
            one->dynamic = (const ElfW(Dyn) *)(info->dlpi_addr + info->dlpi_phdr[i].p_vaddr);
        }
    }
    if (holds(info, search->from)) {
        search->caller = library_count;
    }
    library_count++;
    return 0;
}

/* What a tag of a library says, as an address; the loader has added the base to most of them. */
static const void *told_by(const struct library *one, ElfW(Sxword) tag) {
    for (const ElfW(Dyn) *d = one->dynamic; d != NULL && d->d_tag != DT_NULL; d++) {
        if (d->d_tag == tag) {
            return (const void *)(d->d_un.d_ptr + (d->d_un.d_ptr < one->base ? one->base : 0));
        }
    }
    return NULL;
}

/* The function of a name, in its newest version, that a library has. */
static void *function_in(const struct library *one, const char *name) {
    const uint32_t *table = told_by(one, DT_GNU_HASH);
    const ElfW(Sym) *symbols = told_by(one, DT_SYMTAB);
    const char *texts = told_by(one, DT_STRTAB);
    const ElfW(Half) *versions = told_by(one, DT_VERSYM);
    uint32_t hash = 5381;
    for (const char *c = name; *c != 0; c++) {
        hash = hash * 33 + (unsigned char)*c;
    }
    if (table == NULL || symbols == NULL || texts == NULL || table[0] == 0) {
        return NULL;
    }
    const uint32_t *buckets = table + 4 + table[2] * (sizeof(ElfW(Addr)) / sizeof *table), *hashes = buckets + table[0];
    uint32_t i = buckets[hash % table[0]];
    for (bool is_last = i < table[1]; !is_last; i++) {
        uint32_t own = hashes[i - table[1]];
        if ((own | 1) == (hash | 1) && symbols[i].st_shndx != SHN_UNDEF && strcmp(texts + symbols[i].st_name, name) == 0 && (versions == NULL || (versions[i] & 0x8000) == 0)) {
            return (void *)(one->base + symbols[i].st_value);
        }
        is_last = own & 1;
    }
    return NULL;
}

static const char *base_name(const char *path) {
    const char *stroke = strrchr(path, '/');
    return stroke != NULL ? stroke + 1 : path;
}

/* Puts those that a library wants behind the ones that are known to be wanted. */
static int reach_wanted(const struct library *one, int *reached, int n) {
    const char *texts = told_by(one, DT_STRTAB);
    for (const ElfW(Dyn) *d = one->dynamic; texts != NULL && d != NULL && d->d_tag != DT_NULL; d++) {
        for (int i = 0; d->d_tag == DT_NEEDED && i < library_count; i++) {
            if (!libraries[i].reached && strcmp(base_name(libraries[i].path), base_name(texts + d->d_un.d_val)) == 0) {
                libraries[i].reached = true;
                reached[n++] = i;
            }
        }
    }
    return n;
}

/* Called once, while no library comes or goes. */
static int look_for(struct dl_phdr_info *info, size_t size, void *word) {
    static int reached[LIBRARIES];
    struct search *search = word;
    (void)info, (void)size;
    library_count = 0;
    search->caller = -1;
    dl_iterate_phdr(list_library, search);
    int n = search->caller >= 0;
    if (n > 0) {
        libraries[search->caller].reached = true;
        reached[0] = search->caller;
    }
    for (int i = 0; i < n && search->found == NULL; i++) {
        search->found = function_in(&libraries[reached[i]], search->name);
        n = reach_wanted(&libraries[reached[i]], reached, n);
    }
    for (int i = 0; i < library_count && search->found == NULL; i++) {
        search->found = function_in(&libraries[i], search->name);
    }
    return 1;
}

/* The function that a call is meant for; nothing where no library has it. */
static __attribute__((noinline)) void *of_openmp(const char *name, const void *from) {
    _Atomic(struct site *) *bucket = &sites[((uintptr_t)from * UINT64_C(0x9e3779b97f4a7c15) >> 32) % SITES];
    for (const struct site *one = atomic_load_explicit(bucket, memory_order_acquire); one != NULL; one = one->next) {
        if (one->from == from && one->name == name) {
            return one->found;
        }
    }
    struct search search = {.name = name, .from = from};
    dl_iterate_phdr(look_for, &search);
    struct site *made = search.found != NULL ? malloc(sizeof *made) : NULL;
    if (made != NULL) {
        *made = (struct site){from, name, search.found, atomic_load(bucket)};
        while (!atomic_compare_exchange_weak(bucket, &made->next, made)) {
            continue;
        }
    }
    return search.found;
}

/* A library may have gone: each call is looked for anew. What was known is not given back, since another thread may read it. */
int dlclose(void *library) {
    int result = real_dlclose()(library);
    for (int i = 0; i < SITES; i++) {
        atomic_store(&sites[i], NULL);
    }
    return result;
}

#define FROM __builtin_extract_return_addr(__builtin_return_address(0))
#define OPENMP(result, name, ...) \
    static result (*_Atomic real_##name##_found)(__VA_ARGS__); \
    static inline result (*real_##name(const void *from))(__VA_ARGS__) { \
        result (*found)(__VA_ARGS__) = atomic_load_explicit(&real_##name##_found, memory_order_relaxed); \
        return __builtin_expect(found != NULL, 1) ? found : (result (*)(__VA_ARGS__))of_openmp(#name, from); \
    } \
    __attribute__((constructor)) static void find_##name(void) { atomic_store(&real_##name##_found, (result (*)(__VA_ARGS__))dlsym(RTLD_NEXT, #name)); }

/* ---- slots */
static struct slot *slot_at(unsigned i) {
    struct slot *chunk = atomic_load_explicit(&chunks[i / CHUNK], memory_order_acquire);
    return chunk != NULL ? &chunk[i % CHUNK] : NULL;
}

static struct slot *taken_slot(void) {
    for (unsigned c = 0; c < CHUNKS; c++) {
        struct slot *chunk = atomic_load_explicit(&chunks[c], memory_order_acquire);
        if (chunk == NULL) {
            struct slot *made = mmap(NULL, CHUNK * sizeof *made, PROT_READ | PROT_WRITE, MAP_PRIVATE | MAP_ANONYMOUS, -1, 0);
            if (made == MAP_FAILED) {
                return NULL;
            }
            if (atomic_compare_exchange_strong(&chunks[c], &chunk, made)) {
                chunk = made;
            } else {
                munmap(made, CHUNK * sizeof *made);
            }
        }
        for (unsigned i = 0; i < CHUNK; i++) {
            int free_state = FREE;
            if (atomic_load_explicit(&chunk[i].state, memory_order_relaxed) == FREE && atomic_compare_exchange_strong(&chunk[i].state, &free_state, LIVE)) {
                chunk[i].number = atomic_fetch_add(&thread_numbers, 1);
                chunk[i].index = c * CHUNK + i;
                chunk[i].group = -1;
                return &chunk[i];
            }
        }
    }
    return NULL;
}

static void begin_watching(void);
static void takes(struct slot *s, const void *lock);

static __attribute__((noinline)) struct slot *new_slot(void) {
    if (atomic_load_explicit(&active, memory_order_relaxed) < 0) {
        begin_watching();
    }
    if (atomic_load_explicit(&active, memory_order_relaxed) <= 0) {
        return NULL;
    }
    if (mine == NULL) {
        struct slot *s = taken_slot();
        if (s != NULL) {
            atomic_store(&s->tid, (pid_t)syscall(SYS_gettid));
            atomic_store(&s->handle, pthread_self());
            for (const struct once *runs = runs_once; runs != NULL; runs = runs->outer) {
                takes(s, runs->control);
            }
            mine = s;
        }
    }
    return mine;
}

/* The own slot; for a thread that was made without this library a new one. Nothing where the recorder is off. */
static inline struct slot *own_slot(void) { return __builtin_expect(mine != NULL, 1) ? mine : new_slot(); }

static inline void wait_begins(struct slot *s, enum kind kind, const void *object, const void *from, const void *frame) {
    if (s != NULL) {
        unsigned count = atomic_load_explicit(&s->wait.count, memory_order_relaxed);
        atomic_store_explicit(&s->wait.count, (count + 2) & ~1u, memory_order_relaxed);
        atomic_signal_fence(memory_order_seq_cst);
        atomic_store_explicit(&s->wait.kind, (int)kind, memory_order_relaxed);
        atomic_store_explicit(&s->wait.object, object, memory_order_relaxed);
        atomic_store_explicit(&s->wait.from, from, memory_order_relaxed);
        atomic_store_explicit(&s->wait.frame, frame, memory_order_relaxed);
        atomic_store_explicit(&s->wait.count, ((count + 2) & ~1u) + 1, memory_order_release);
    }
}

static inline void wait_ends(void *slot) {
    struct slot *s = slot;
    if (s != NULL) {
        unsigned count = atomic_load_explicit(&s->wait.count, memory_order_relaxed);
        atomic_store_explicit(&s->wait.count, (count + 1) & ~1u, memory_order_release);
    }
}

/* ---- the owners of OpenMP's locks, which do not know them, and of what is called once. One word has the number of a slot and the address of the lock, so that both are of one moment; a lock that is
 * pushed out by another has no owner that is known. */
enum { OWNED = 1024, ADDRESS_BITS = 48 };
static _Atomic(uint64_t) owned[OWNED];
static char unnamed_critical;
#define ADDRESS_OF(lock) ((uint64_t)(uintptr_t)(lock) & ((UINT64_C(1) << ADDRESS_BITS) - 1))

static _Atomic(uint64_t) *entry_of(const void *lock) { return &owned[(ADDRESS_OF(lock) * UINT64_C(0x9e3779b97f4a7c15) >> 32) % OWNED]; }

static void takes(struct slot *s, const void *lock) {
    if (s != NULL && s->index < 0xffff) {
        atomic_store_explicit(entry_of(lock), (uint64_t)(s->index + 1) << ADDRESS_BITS | ADDRESS_OF(lock), memory_order_release);
    }
}

static void gives_back(const void *lock) {
    if ((atomic_load_explicit(entry_of(lock), memory_order_relaxed) & ((UINT64_C(1) << ADDRESS_BITS) - 1)) == ADDRESS_OF(lock)) {
        atomic_store_explicit(entry_of(lock), 0, memory_order_release);     /* nobody else has this lock; another one that comes here meanwhile is only not known */
    }
}

static struct slot *owner_of_lock(const void *lock) {
    uint64_t now = atomic_load(entry_of(lock));
    return now != 0 && (now & ((UINT64_C(1) << ADDRESS_BITS) - 1)) == ADDRESS_OF(lock) ? slot_at((unsigned)(now >> ADDRESS_BITS) - 1) : NULL;
}

/* A thread has ended, and its slot is another one's soon: of what it did not give back the owner is not known any more. */
static void owns_no_more(const struct slot *s) {
    for (unsigned i = 0; i < OWNED; i++) {
        uint64_t now = atomic_load_explicit(&owned[i], memory_order_relaxed);
        if (now >> ADDRESS_BITS == s->index + 1) {
            atomic_compare_exchange_strong(&owned[i], &now, 0);
        }
    }
}

/* ---- lines */
static char text[1 << 16];
static size_t length;

static void hand_over(void) {
    struct stat now;
    if (length == 0 || out < 0) {
        length = 0;
        return;
    }
    bool same = fstat(out, &now) == 0 && now.st_ino == out_stat.st_ino && now.st_dev == out_stat.st_dev;   /* the program may have closed it and opened another */
    ssize_t sent = same ? send(out, text, length, MSG_DONTWAIT | MSG_NOSIGNAL) : -1;
    if (sent != (ssize_t)length) {
        if (same) {
            close(out);
        }
        out = -1;
    }
    length = 0;
}

__attribute__((format(printf, 1, 2))) static void say(const char *form, ...) {
    va_list words;
    if (length > sizeof text - 2 * LINE) {
        hand_over();
    }
    va_start(words, form);
    int n = vsnprintf(text + length, LINE, form, words);
    va_end(words);
    if (n > 0 && n < LINE) {
        length += (size_t)n;
        text[length++] = '\n';
    }
}

/* ---- places */
static bool read_memory(const void *from, void *to, size_t size) {
    struct iovec a = {to, size}, b = {(void *)(uintptr_t)from, size};
    return process_vm_readv(watcher_tid, &a, 1, &b, 1, 0) == (ssize_t)size;
}

static bool is_library_of_threads(const char *path) {
    const char *base = base_name(path);
    return strncmp(base, "libstdc++", 9) == 0 || strncmp(base, "libgomp", 7) == 0 || strncmp(base, "libc.so", 7) == 0 || strncmp(base, "libc++", 6) == 0
        || strncmp(base, "libpthread", 10) == 0 || strncmp(base, "libarmus", 8) == 0 || strncmp(base, "libgcc", 6) == 0 || strncmp(base, "ld-linux", 8) == 0
        || strncmp(base, "libomp", 6) == 0 || strncmp(base, "libiomp", 7) == 0;
}

/* The kernel's line of the mapping that has this address. */
enum { MAPPED = 512 };
static bool mapping_of(unsigned long address, char *line) {
    FILE *maps = fopen("/proc/thread-self/maps", "re");
    bool found = false;
    while (!found && maps != NULL && fgets(line, MAPPED, maps) != NULL) {
        unsigned long from, to;
        found = sscanf(line, "%lx-%lx", &from, &to) == 2 && from <= address && address < to;
    }
    if (maps != NULL) {
        fclose(maps);
    }
    return found;
}

/* The addresses of the program's own calls: the one from which it waits, or, where that is a library of threads, the words of the stack that stand behind a call in
 * another file. The next ones serve where the first is of code that a header brought into the program. */
enum { CALLS = 5, WORDS = 160, FRAME = 65536 };

/* Whether this is an address behind a call in the program, and in the same file as the ones that are known. */
static bool is_own_call(uintptr_t word, unsigned known, Dl_info *info) {
    unsigned char before[6];
    Dl_info found;
    const char *at = (const char *)word;
    if (word <= 4096 || !file_of(at, &found) || is_library_of_threads(found.dli_fname) || (known > 0 && found.dli_fbase != info->dli_fbase)
        || !read_memory(at - 6, before, 6) || !(before[1] == 0xe8 || (before[4] == 0xff && (before[5] & 0xf8) == 0xd0) || (before[0] == 0xff && before[1] == 0x15))) {
        return false;
    }
    *info = found;
    return true;
}

/* The callers of a call, as far as each keeps the frame of the one before it: code that was not made for speed does, and it is that in which a header's functions stand by
 * themselves. */
static unsigned callers(const void *frame, const void **calls, unsigned n, Dl_info *info) {
    uintptr_t own = (uintptr_t)frame, words[2];
    while (n < CALLS && read_memory((const void *)own, words, sizeof words)) {
        if (words[0] <= own || words[0] - own > FRAME) {
            break;
        }
        own = words[0];
        if (!read_memory((const void *)own, words, sizeof words) || !is_own_call(words[1], n, info)) {
            break;
        }
        calls[n++] = (const void *)words[1];
    }
    return n;
}

static unsigned own_calls(const void *from, const void *frame, bool searches, const void **calls, Dl_info *info) {
    static uintptr_t words[WORDS];
    unsigned n = 0, size = sizeof words;
    if (from != NULL && file_of(from, info) && !is_library_of_threads(info->dli_fname)) {
        calls[n++] = from;
        n = frame != NULL ? callers(frame, calls, n, info) : n;
    }
    if (!searches || n > 1) {
        return n;
    }
    while (size >= 512 && !read_memory((const char *)frame + 16, words, size)) {
        size /= 2;                                             /* the stack ends before */
    }
    for (unsigned i = 0; i < size / sizeof words[0] && n < CALLS; i++) {
        if (is_own_call(words[i], n, info)) {
            calls[n++] = (const void *)words[i];
        }
    }
    return n;
}

static void place_of(char *to, size_t size, const void *from, const void *frame, bool searches, bool is_return) {
    static char program[256];
    const void *calls[CALLS];
    char line[MAPPED];
    Dl_info info;
    unsigned n = from != NULL ? own_calls(from, frame, searches && frame != NULL, calls, &info) : 0;
    if (program[0] == 0) {
        ssize_t length_of_name = readlink("/proc/thread-self/exe", program, sizeof program - 1);
        program[length_of_name > 0 ? length_of_name : 0] = 0;
    }
    if (n == 0) {
        snprintf(to, size, "%s", program[0] ? base_name(program) : "main");
        return;
    }
    const char *file = info.dli_fname[0] == 0 || strchr(info.dli_fname, '/') == NULL ? program : info.dli_fname;
    if (file[0] != '/' && mapping_of((unsigned long)info.dli_fbase, line) && strchr(line, '/') != NULL) {
        line[strcspn(line, "\n")] = 0;                        /* the library was named from a folder that may be another one now */
        file = strchr(line, '/');
    }
    bool fixed = ((const Elf64_Ehdr *)info.dli_fbase)->e_type == ET_EXEC;
    int k = snprintf(to, size, "%.180s", strlen(file) > 180 ? base_name(file) : file);
    for (unsigned i = 0; i < n; i++) {
        uintptr_t offset = (uintptr_t)calls[i] - (is_return ? 1 : 0) - (fixed ? 0 : (uintptr_t)info.dli_fbase);
        k += snprintf(to + k, size - (size_t)k, "%c%#lx", i == 0 ? '+' : ',', (unsigned long)offset);
    }
}

/* ---- what the kernel says */
static bool proc_text(const char *form, pid_t tid, char *to, size_t size) {
    char path[64];
    snprintf(path, sizeof path, form, (int)tid);
    int f = open(path, O_RDONLY | O_CLOEXEC);
    if (f < 0) {
        return false;
    }
    ssize_t n = read(f, to, size - 1);
    close(f);
    to[n > 0 ? n : 0] = 0;
    return n > 0;
}

/* Whether a thread has ended; of one of which the kernel tells nothing that is not known. */
static bool is_over(pid_t tid) {
    char line[256];
    errno = 0;
    if (!proc_text("/proc/self/task/%d/stat", tid, line, sizeof line)) {
        return (errno == ENOENT || errno == ESRCH) && proc_text("/proc/self/task/%d/stat", watcher_tid, line, sizeof line);
    }
    const char *close_of_name = strrchr(line, ')');
    return close_of_name != NULL && (close_of_name[2] == 'Z' || close_of_name[2] == 'X');
}

/* Whether the memory of this address is shared with other processes. */
static bool is_shared(unsigned long address) {
    static unsigned long own[64];                              /* addresses that are known to be the process's own */
    unsigned long *known = &own[address / 64 % 64];
    char line[MAPPED], may[5];
    if (*known == address) {
        return false;
    }
    bool shared = !mapping_of(address, line) || sscanf(line, "%*s %4s", may) != 1 || may[3] != 'p';
    *known = shared ? 0 : address;
    return shared;
}

/* Whether this is code of GCC's OpenMP, which on x86-64 makes its futex calls itself. A thread that waits in it may run a task meanwhile, and sleep elsewhere. */
static bool is_of_openmp(unsigned long code) {
#ifdef __x86_64__
    static unsigned long known;
    Dl_info info;
    if (code != known) {
        if (!file_of((const void *)code, &info) || strncmp(base_name(info.dli_fname), "libgomp", 7) != 0) {
            return false;
        }
        known = code;
    }
#endif
    return true;
}

/* Whether the thread sleeps without a limit in a futex call at an address of the object; of OpenMP's objects, whose addresses are not known, in its own code. */
static bool sleeps(const struct slot *s) {
    static const size_t sizes[KINDS] = {[BARRIER] = sizeof(pthread_barrier_t), [JOIN] = 4096, [MUTEX] = sizeof(pthread_mutex_t), [RWLOCK] = sizeof(pthread_rwlock_t),
        [CONDITION] = sizeof(pthread_cond_t), [SEMAPHORE] = sizeof(sem_t), [ONCE] = sizeof(pthread_once_t), [ADDRESS] = 8};
    char line[256];
    unsigned long words[6], stack, code;
    long number;
    if (!proc_text("/proc/self/task/%d/syscall", atomic_load(&s->tid), line, sizeof line)
        || sscanf(line, "%ld %lx %lx %lx %lx %lx %lx %lx %lx", &number, &words[0], &words[1], &words[2], &words[3], &words[4], &words[5], &stack, &code) != 9
        || number != SYS_futex) {
        return false;
    }
    int call = (int)words[1] & FUTEX_CMD_MASK;
    if ((call != FUTEX_WAIT && call != FUTEX_WAIT_BITSET && call != FUTEX_LOCK_PI && call != FUTEX_LOCK_PI2) || words[3] != 0) {
        return false;
    }
    if (s->kind != JOIN && !(words[1] & FUTEX_PRIVATE_FLAG) && is_shared(words[0])) {
        return false;                                          /* another process may come */
    }
    return sizes[s->kind] == 0 ? is_of_openmp(code) : words[0] - (uintptr_t)s->object < sizes[s->kind];
}

/* Whether a signal's handler could end such a wait: by sem_post, by a word in memory, and in many programs by pthread_cond_signal. */
static bool may_be_ended_by_handler(int kind) { return kind == SEMAPHORE || kind == ADDRESS || kind == CONDITION; }

/* Whether a signal's handler may act: one is installed, and not only for a fault of the program itself. */
static bool has_handlers(void) {
    char status[4096];
    unsigned long caught = 0;
    int f = open("/proc/self/status", O_RDONLY | O_CLOEXEC);
    if (f < 0) {
        return true;
    }
    ssize_t n = read(f, status, sizeof status - 1);
    close(f);
    status[n > 0 ? n : 0] = 0;
    const char *at = strstr(status, "SigCgt:");
    if (at != NULL) {
        sscanf(at, "SigCgt: %lx", &caught);
    }
    unsigned long faults = 1ul << (SIGSEGV - 1) | 1ul << (SIGBUS - 1) | 1ul << (SIGFPE - 1) | 1ul << (SIGILL - 1) | 1ul << (SIGABRT - 1) | 3ul << 31;
    return at == NULL || (caught & ~faults) != 0;
}

/* ---- objects and groups: who waits for the same */
struct object { int kind; const void *key; unsigned number, team, turns; };
static struct object objects[OBJECTS];
static unsigned object_count[KINDS], objects_known;
struct group { bool used; int kind; const void *object; unsigned team, barriers; struct slot *owner; bool any; unsigned number, wildcards; char name[NAME + 24]; unsigned turn; };
static struct group groups[OBJECTS];
static bool any_is_said;

/* The entry of an object, or the free one that it may have: one is always free. */
static struct object *entry_among(struct object *table, int kind, const void *key, unsigned team) {
    unsigned h = (unsigned)(((uintptr_t)key >> 3) * 2654435761u + (unsigned)kind * 97 + team * 31) % OBJECTS;
    while (table[h].number != 0 && (table[h].kind != kind || table[h].key != key || table[h].team != team)) {
        h = (h + 1) % OBJECTS;
    }
    return &table[h];
}

static unsigned team_of_group(const struct group *g) { return g->kind == TEAM || g->kind == TEAM_END ? g->team : 0; }

/* Keeps only those at which somebody is told to wait. Numbers are not given again, so one that comes back has a new name. */
static void forget_objects(void) {
    static struct object before[OBJECTS];
    memcpy(before, objects, sizeof before);
    memset(objects, 0, sizeof objects);
    objects_known = 0;
    for (unsigned i = 0; i < OBJECTS; i++) {
        const struct group *g = &groups[i];
        const struct object *known = entry_among(before, g->kind, g->object, team_of_group(g));
        struct object *o = entry_among(objects, g->kind, g->object, team_of_group(g));
        if (g->used && known->number != 0 && o->number == 0) {
            *o = *known;
            objects_known++;
        }
    }
}

static struct object *object_of(int kind, const void *key, unsigned team) {
    struct object *o = entry_among(objects, kind, key, team);
    if (o->number == 0 && objects_known == OBJECTS - 1) {
        forget_objects();
        o = entry_among(objects, kind, key, team);
    }
    if (o->number == 0) {
        if (objects_known == OBJECTS - 1) {
            return NULL;
        }
        *o = (struct object){kind, key, ++object_count[kind], team, 0};
        objects_known++;
    }
    return o;
}

#define EACH_SLOT(s) for (unsigned index_ = 0; index_ < CHUNK * CHUNKS && slot_at(index_) != NULL; index_++) for (struct slot *s = slot_at(index_); s != NULL; s = NULL) if (atomic_load_explicit(&s->state, memory_order_acquire) != FREE)

static struct slot *slot_of_tid(pid_t tid) {
    struct slot *found = NULL;
    EACH_SLOT(s) {
        if (atomic_load_explicit(&s->tid, memory_order_relaxed) == tid && !s->over && (found == NULL || found->foreign)) {
            found = s;
        }
    }
    return found;
}

/* Whether another thread has the name; that of main is kept for it. */
static bool is_name_of_another(const struct slot *s) {
    bool found = strcmp(s->name, "main") == 0;
    EACH_SLOT(t) {
        found |= t != s && t->announced && strcmp(t->name, s->name) == 0;
    }
    return found;
}

/* A name of its own, which does not begin as those of wildcards do. */
static void named(struct slot *s) {
    char comm[20] = "", own[20] = "", base[NAME];
    pid_t tid = atomic_load(&s->tid);
    if (tid == process) {
        snprintf(s->name, sizeof s->name, "main");
        return;
    }
    proc_text("/proc/self/task/%d/comm", tid, comm, sizeof comm);
    proc_text("/proc/self/task/%d/comm", process, own, sizeof own);
    comm[strcspn(comm, "\n")] = own[strcspn(own, "\n")] = 0;
    for (char *c = comm; *c != 0; c++) {
        *c = *c > 32 && *c < 127 && *c != '/' ? *c : '_';
    }
    if (comm[0] == 0 || strcmp(comm, own) == 0) {
        snprintf(base, sizeof base, "thread-%u", s->number);
    } else {
        comm[0] = comm[0] == '?' ? '_' : comm[0];
        snprintf(base, sizeof base, "%s", comm);
    }
    snprintf(s->name, sizeof s->name, "%s", base);
    for (unsigned k = s->number; is_name_of_another(s); k++) {
        snprintf(s->name, sizeof s->name, "%.20s_%u", base, k);
    }
}

/* Threads that this library did not see begin: they run. False where it cannot know them. */
static bool find_foreign(void) {
    DIR *d = opendir("/proc/self/task");
    struct dirent *e;
    while (d != NULL && (e = readdir(d)) != NULL) {
        pid_t tid = (pid_t)atoi(e->d_name);
        if (tid > 0 && tid != watcher_tid && slot_of_tid(tid) == NULL && !is_over(tid)) {
            struct slot *s = taken_slot();
            if (s != NULL) {
                s->foreign = true;
                atomic_store(&s->tid, tid);
            }
        }
    }
    if (d != NULL) {
        closedir(d);
    }
    return d != NULL;
}

/* ---- a look */
static struct slot *owner_of(const struct slot *s) {
    int owner = 0;
    if (s->kind == MUTEX) {
        pthread_mutex_t m;
        owner = read_memory(s->object, &m, sizeof m) ? m.__data.__owner & FUTEX_TID_MASK : 0;
    } else if (s->kind == RWLOCK) {
        pthread_rwlock_t l;
        owner = read_memory(s->object, &l, sizeof l) ? l.__data.__cur_writer : 0;
    } else if (s->kind == CRITICAL || s->kind == OMP_LOCK || s->kind == ONCE) {
        return owner_of_lock(s->object);
    } else if (s->kind == JOIN) {
        struct slot *last = NULL;                              /* one that has ended may have had the same address */
        EACH_SLOT(t) {
            if (atomic_load(&t->handle) == (pthread_t)(uintptr_t)s->object && !t->foreign && (last == NULL || t->number > last->number)) {
                last = t;
            }
        }
        return last;
    }
    return owner > 0 ? slot_of_tid(owner) : NULL;
}

static void look_at(struct slot *s, int *handlers) {
    s->stands = false;
    unsigned count = atomic_load_explicit(&s->wait.count, memory_order_acquire);
    bool twice = count % 2 == 1 && count == s->seen;
    s->seen = count;
    if (!twice || s->foreign) {
        return;
    }
    s->kind = atomic_load_explicit(&s->wait.kind, memory_order_relaxed);
    s->object = atomic_load_explicit(&s->wait.object, memory_order_relaxed);
    s->team_number = atomic_load(&s->team.number);
    s->barriers = atomic_load(&s->team.barriers);
    atomic_thread_fence(memory_order_acquire);
    if (may_be_ended_by_handler(s->kind) && *handlers < 0) {
        *handlers = has_handlers();
    }
    if ((may_be_ended_by_handler(s->kind) && *handlers) || !sleeps(s)) {
        return;
    }
    s->owner = owner_of(s);
    if (s->kind == TEAM_END) {
        struct slot *first = atomic_load(&s->team.first);
        if (first == NULL || atomic_load(&first->team.number) != s->team_number) {
            s->kind = IDLE;                                    /* the region is over: a thread of the pool */
        }
    }
    s->stands = atomic_load_explicit(&s->wait.count, memory_order_acquire) == count;
}

static bool keeps(const struct slot *member, const struct group *g) {
    if (atomic_load(&member->team.number) != g->team || member->over) {
        return false;
    }
    return g->kind == TEAM ? atomic_load(&member->team.barriers) < g->barriers : !atomic_load(&member->team.at_end);
}

static bool fits(const struct slot *s, const struct group *g) {
    return g->used && g->kind == s->kind && g->object == s->object && g->owner == s->owner
        && ((s->kind != TEAM && s->kind != TEAM_END) || (g->team == s->team_number && (s->kind == TEAM_END || g->barriers == s->barriers)));
}

/* A team's group is over when somebody of whom it waited has come, and any when one of its waiting threads does not stand there any more. */
static bool is_past(unsigned i) {
    struct group *g = &groups[i];
    unsigned kept = 0;
    EACH_SLOT(s) {
        if (s->group == (int)i && (s->over || !s->stands || s->seen != s->told || !fits(s, g))) {
            return true;
        }
        kept += (g->kind == TEAM || g->kind == TEAM_END) && keeps(s, g);
    }
    return (g->kind == TEAM || g->kind == TEAM_END) && kept != g->number;
}

static void retire(unsigned i) {
    struct group *g = &groups[i];
    struct object *o = object_of(g->kind, g->object, team_of_group(g));
    if (g->any) {
        say("%d/?any-thread leave %d/%s", process, process, g->name);
    }
    for (unsigned k = 0; k < g->wildcards; k++) {
        say(k == 0 ? "%d/?%s end" : "%d/?%s#%u end", process, g->name, k);
    }
    EACH_SLOT(s) {
        if (s->group == (int)i) {
            say("%d/%s go", process, s->name);
            s->group = -1;
            s->told = 0;
        }
    }
    if (o != NULL) {
        o->turns++;
    }
    g->used = false;
}

/* Where nobody knows who may act it is any thread of this process: a wildcard that is a member of all such phasers. */
static void say_any(void) {
    char line[LINE];
    unsigned names = 0;
    size_t n = (size_t)snprintf(line, sizeof line, "%d/?any-thread of", process);
    EACH_SLOT(s) {
        names += s->announced;
        if (s->announced && n < sizeof line) {
            n += (size_t)snprintf(line + n, sizeof line - n, " %d/%s", process, s->name);
        }
    }
    if (n < LINE && names > 1) {
        say("%s", line);
    } else {
        say("%d/?any-thread any", process);
    }
}

static void wildcard(struct group *g, const struct slot *only) {
    char name[NAME + 50];
    if (only == NULL) {
        if (!any_is_said) {
            any_is_said = true;
            say_any();
        }
        say("%d/?any-thread join %d/%s %u", process, process, g->name, g->turn);
        g->any = true;
        return;
    }
    snprintf(name, sizeof name, g->wildcards == 0 ? "%d/?%s" : "%d/?%s#%u", process, g->name, g->wildcards);
    say("%s of %d/%s", name, process, only->name);
    say("%s join %d/%s %u", name, process, g->name, g->turn);
    g->wildcards++;
}

/* Of a mutex that nobody gives back, since its owner has ended: who that was. What it is told by says so, and still any thread may act. */
static const char *ended_owner(const struct slot *s) {
    pthread_mutex_t m;
    int owner = s->kind == MUTEX && s->owner == NULL && read_memory(s->object, &m, sizeof m) ? m.__data.__owner & FUTEX_TID_MASK : 0;
    for (unsigned i = 0; owner > 0 && i < ENDED; i++) {
        if (ended[i].tid == owner) {
            return ended[i].name;
        }
    }
    return NULL;
}

static int new_group(struct slot *s) {
    struct object *o = object_of(s->kind, s->object, s->kind == TEAM || s->kind == TEAM_END ? s->team_number : 0);
    if (o == NULL) {
        return -1;
    }
    for (unsigned i = 0; i < OBJECTS; i++) {
        struct group *g = &groups[i];
        if (g->used) {
            continue;
        }
        *g = (struct group){.used = true, .kind = s->kind, .object = s->object, .team = s->team_number, .barriers = s->barriers, .owner = s->owner, .turn = o->turns};
        snprintf(g->name, sizeof g->name, s->kind == JOIN && s->owner != NULL ? "%s-%s" : "%s-%s", kind_names[s->kind], s->kind == JOIN && s->owner != NULL ? s->owner->name : "");
        if (s->kind != JOIN || s->owner == NULL) {
            const char *kept_by = ended_owner(s);
            snprintf(g->name, sizeof g->name, kept_by != NULL ? "%s-%u-kept-by-%.24s" : "%s-%u", kind_names[s->kind], o->number, kept_by);
        }
        for (unsigned j = 0; j < OBJECTS; j++) {
            if (j != i && groups[j].used && strcmp(groups[j].name, g->name) == 0) {
                snprintf(g->name + strlen(g->name), 8, ".%u", i % 100000);   /* the same object, kept by another thread */
                break;
            }
        }
        if (s->kind == TEAM || s->kind == TEAM_END) {
            unsigned members = 0;
            EACH_SLOT(t) {
                members += atomic_load(&t->team.number) == g->team && !t->over;
                if (keeps(t, g)) {
                    wildcard(g, t);
                    g->number++;
                }
            }
            if (members < atomic_load(&s->team.size)) {
                wildcard(g, NULL);
            }
        } else {
            wildcard(g, s->owner);
        }
        return (int)i;
    }
    return -1;
}

static void announce_new(void) {
    bool news = false;
    EACH_SLOT(s) {
        if (!s->announced && atomic_load(&s->tid) != 0 && !s->over) {
            named(s);
            place_of(s->place, sizeof s->place, s->begins, NULL, false, false);
            say("%d/%s at @%s", process, s->name, s->place);
            s->announced = news = true;
        }
    }
    if (news && any_is_said) {
        say_any();
    }
}

static void announce_wait(struct slot *s) {
    for (unsigned i = 0; i < OBJECTS && s->group < 0; i++) {
        s->group = fits(s, &groups[i]) ? (int)i : -1;
    }
    s->group = s->group >= 0 ? s->group : new_group(s);
    if (s->group >= 0) {
        place_of(s->place, sizeof s->place, atomic_load(&s->wait.from), atomic_load(&s->wait.frame), s->kind < CRITICAL || s->kind == ADDRESS, true);
        say("%d/%s wait %d/%s %u @%s", process, s->name, process, groups[s->group].name, groups[s->group].turn + 1, s->place);
        s->told = s->seen;
    }
}

/* Who waits for a thread's end is announced first, then who waits for anybody, then who waits for a thread that has to do something, and the end of a team last: the last
 * of them begins the message. */
enum { TURNS = 4 };
static int turn_of(const struct slot *s) { return s->kind == JOIN ? 0 : s->kind == TEAM_END ? TURNS - 1 : s->owner == NULL && s->kind != TEAM ? 1 : 2; }

static void look(void) {
    int handlers = -1;
    bool news = false;
    EACH_SLOT(s) {                                             /* first who has ended: then whoever stands is not one whom these have let go */
        if (!s->over && (atomic_load(&s->state) == ENDING || s->foreign) && atomic_load(&s->tid) != 0) {
            s->over = is_over(atomic_load(&s->tid));
            news |= s->over;
        }
    }
    EACH_SLOT(s) {
        look_at(s, &handlers);
        news |= s->stands && s->group < 0;
    }
    if (news && !find_foreign()) {
        return;
    }
    EACH_SLOT(s) {
        if (atomic_load(&s->tid) == 0) {
            return;                                            /* a thread is beginning: the next look knows it */
        }
        s->over |= s->foreign && slot_of_tid(atomic_load(&s->tid)) != s;
    }
    announce_new();
    for (unsigned i = 0; i < OBJECTS; i++) {
        if (groups[i].used && is_past(i)) {
            retire(i);
        }
    }
    EACH_SLOT(s) {
        if (s->over) {
            if (s->announced) {
                say("%d/%s end", process, s->name);
            } else {
                snprintf(s->name, sizeof s->name, "thread-%u", s->number);
            }
            ended[ended_count % ENDED].tid = atomic_load(&s->tid);
            snprintf(ended[ended_count++ % ENDED].name, NAME, "%s", s->name);
            owns_no_more(s);
            memset(&s->wait, 0, sizeof s->wait);
            memset(&s->team, 0, sizeof s->team);
            s->announced = s->over = s->stands = s->foreign = false;
            s->seen = s->told = 0;
            s->begins = NULL;
            s->owner = NULL;
            atomic_store(&s->handle, 0);
            atomic_store(&s->tid, 0);
            atomic_store(&s->state, FREE);
        }
    }
    for (int turn = 0; turn < TURNS; turn++) {
        EACH_SLOT(s) {
            if (s->stands && s->group < 0 && s->announced && turn_of(s) == turn) {
                announce_wait(s);
            }
        }
    }
    hand_over();
}

/* A message queue tells the process no more of what comes where one of its files is closed. */
static bool is_message_queue(int file) {
    struct statfs found;
    return fstatfs(file, &found) == 0 && found.f_type == MQUEUE_MAGIC;
}

/* The watcher's files are its own: what it opens takes no number from the program, and what the program closes is none of them. Where the system does not let it, its
 * socket has a high number among those of the program. */
static void take_own_files(void) {
    if (unshare(CLONE_FILES) != 0) {
        return;
    }
    DIR *files = opendir("/proc/thread-self/fd");
    if (files == NULL) {
        syscall(SYS_close_range, 0u, ~0u, 0u);
        return;
    }
    for (struct dirent *entry; (entry = readdir(files)) != NULL;) {
        int file = atoi(entry->d_name);
        if (entry->d_name[0] != '.' && file != dirfd(files) && !is_message_queue(file)) {
            close(file);
        }
    }
    closedir(files);
}

static int connected(const char *path) {
    struct sockaddr_un to = {.sun_family = AF_UNIX};
    size_t n = strcspn(path, "|");
    if (n >= sizeof to.sun_path) {
        return -1;
    }
    memcpy(to.sun_path, path, n);
    int s = socket(AF_UNIX, SOCK_STREAM | SOCK_CLOEXEC, 0);
    if (s < 0) {
        return -1;
    }
    if (connect(s, (struct sockaddr *)&to, sizeof to) < 0) {
        close(s);
        return -1;
    }
    struct rlimit most;
    long high = getrlimit(RLIMIT_NOFILE, &most) == 0 && most.rlim_cur < 65536 ? (long)most.rlim_cur : 65536;
    int moved = fcntl(s, F_DUPFD_CLOEXEC, (int)(high - high / 16));   /* out of the way of the program's own */
    if (moved >= 0) {
        close(s);
        return moved;
    }
    return s;
}

static void *watch(void *nothing) {
    struct timespec begun, done;
    watcher_tid = (pid_t)syscall(SYS_gettid);
    pthread_setname_np(pthread_self(), "armus");
    take_own_files();
    out = connected(address);
    if (out >= 0 && fstat(out, &out_stat) != 0) {
        close(out);
        out = -1;
    }
    say("# process %d/", process);
    while (out >= 0 && !atomic_load(&stopping)) {
        clock_gettime(CLOCK_THREAD_CPUTIME_ID, &begun);
        look();
        clock_gettime(CLOCK_THREAD_CPUTIME_ID, &done);
        long took = (done.tv_sec - begun.tv_sec) * 1000000000L + done.tv_nsec - begun.tv_nsec;
        long pause = took * 25 > PERIOD * (long)MILLISECOND ? took * 25 : PERIOD * (long)MILLISECOND;
        pause = pause < LONGEST * (long)MILLISECOND ? pause : LONGEST * (long)MILLISECOND;
        struct timespec t = {pause / 1000000000L, pause % 1000000000L};
        syscall(SYS_futex, &stopping, FUTEX_WAIT_PRIVATE, 0, &t, NULL, 0);
    }
    atomic_store(&active, 0);
    return nothing;
}

/* ---- begin */
static bool has_another_recorder(void) {
    char exe[512];
    ssize_t n = readlink("/proc/thread-self/exe", exe, sizeof exe - 1);
    exe[n > 0 ? n : 0] = 0;
    const char *base = base_name(exe);
    return dlsym(RTLD_DEFAULT, "JNI_CreateJavaVM") != NULL || dlsym(RTLD_DEFAULT, "Py_IsInitialized") != NULL || strcmp(base, "java") == 0
        || dlsym(RTLD_DEFAULT, "MPI_Init") != NULL || strncmp(base, "orte", 4) == 0 || strncmp(base, "prte", 4) == 0 || strncmp(base, "hydra", 5) == 0;
}

/* The child begins anew. The socket is one of the watcher's own files, which a child has not; where the watcher has none of its own, nobody writes to it. */
static void forked(void) {
    bool is_made_here = mine != NULL && atomic_load(&mine->tid) != process;   /* not main: the child ends with this thread */
    out = -1;
    length = 0;
    for (unsigned c = 0; c < CHUNKS; c++) {
        struct slot *chunk = atomic_load(&chunks[c]);
        if (chunk != NULL) {
            memset(chunk, 0, CHUNK * sizeof *chunk);
        }
    }
    memset(objects, 0, sizeof objects);
    memset(object_count, 0, sizeof object_count);
    objects_known = 0;
    memset(ended, 0, sizeof ended);
    memset(groups, 0, sizeof groups);
    any_is_said = false;
    mine = NULL;
    for (unsigned i = 0; i < OWNED; i++) {
        atomic_store(&owned[i], 0);
    }
    atomic_store(&is_watched, false);
    atomic_store(&stopping, 0);
    atomic_store(&main_has_left, is_made_here);
    atomic_store(&living, is_made_here);
    atomic_store(&active, -1);
}

static void begin_watching(void) {
    static _Atomic(bool) handled;
    int not_begun = -1;
    const char *path = getenv("ARMUS_SOCKET");
    if (!atomic_compare_exchange_strong(&active, &not_begun, 0) || path == NULL || has_another_recorder()) {
        return;
    }
    int saved = errno;
    sigset_t every, own;
    pthread_attr_t kept;
    process = getpid();
    snprintf(address, sizeof address, "%s", path);
    atomic_store(&thread_numbers, 0);
    if (!atomic_exchange(&handled, true)) {
        pthread_atfork(NULL, NULL, forked);
    }
    atomic_store(&active, 1);
    own_slot();                                                /* whoever begins is the first; main, if it is another, is found as foreign */
    sigfillset(&every);
    pthread_sigmask(SIG_SETMASK, &every, &own);
    pthread_attr_init(&kept);
    pthread_attr_setstacksize(&kept, 256 * 1024);
    if (real_pthread_create()(&watcher, &kept, watch, NULL) == 0) {
        atomic_store(&is_watched, true);
    } else {
        atomic_store(&active, 0);
    }
    pthread_attr_destroy(&kept);
    pthread_sigmask(SIG_SETMASK, &own, NULL);
    errno = saved;
}

/* ---- threads */
struct start { void *(*function)(void *); void *word; struct slot *slot; };

/* Where main has left by pthread_exit, glibc ends the process with its last thread. That must not be the watcher, so it ends before. */
static void end_watcher_before_last(void) {
    int not_yet = 0, kept;
    if (!atomic_load(&main_has_left) || atomic_load(&living) != 0 || !atomic_load(&is_watched)
        || !atomic_compare_exchange_strong(&stopping, &not_yet, 1)) {
        return;
    }
    pthread_setcancelstate(PTHREAD_CANCEL_DISABLE, &kept);     /* a join is a cancellation point, and the end of a thread is none */
    syscall(SYS_futex, &stopping, FUTEX_WAKE_PRIVATE, 1, NULL, NULL, 0);
    real_pthread_join()(watcher, NULL);
    pthread_setcancelstate(kept, NULL);
}

static void thread_ends(void *slot) {
    struct slot *s = slot;
    wait_ends(s);
    atomic_store(&s->state, ENDING);
    atomic_fetch_sub(&living, 1);
    end_watcher_before_last();
}

static void *run(void *word) {
    struct start start = *(struct start *)word;
    void *result;
    free(word);
    mine = start.slot;
    atomic_store(&mine->handle, pthread_self());
    atomic_store(&mine->tid, (pid_t)syscall(SYS_gettid));
    pthread_cleanup_push(thread_ends, start.slot);
    result = start.function(start.word);
    pthread_cleanup_pop(1);
    return result;
}

int pthread_create(pthread_t *to, const pthread_attr_t *kept, void *(*function)(void *), void *word) {
    struct slot *own = own_slot();
    struct start *start = own != NULL ? malloc(sizeof *start) : NULL;
    struct slot *s = start != NULL ? taken_slot() : NULL;
    if (s == NULL) {
        free(start);
        return real_pthread_create()(to, kept, function, word);
    }
    s->begins = (const void *)(uintptr_t)function;
    *start = (struct start){function, word, s};
    atomic_fetch_add(&living, 1);
    int result = real_pthread_create()(to, kept, run, start);
    if (result != 0) {
        atomic_fetch_sub(&living, 1);
        atomic_store(&s->state, FREE);
        free(start);
    }
    return result;
}

static void main_ends(void) {
    if (mine != NULL && atomic_load(&mine->tid) == process) {
        atomic_store(&mine->state, ENDING);
        atomic_store(&main_has_left, true);
        end_watcher_before_last();
    }
}

__attribute__((noreturn)) void pthread_exit(void *result) {
    main_ends();
    real_pthread_exit()(result);
    __builtin_unreachable();
}

/* The threads of C11, which glibc makes by its own. */
struct start_c11 { thrd_start_t function; void *word; struct slot *slot; };

static int run_c11(void *word) {
    struct start_c11 start = *(struct start_c11 *)word;
    int result;
    free(word);
    mine = start.slot;
    atomic_store(&mine->handle, pthread_self());
    atomic_store(&mine->tid, (pid_t)syscall(SYS_gettid));
    pthread_cleanup_push(thread_ends, start.slot);
    result = start.function(start.word);
    pthread_cleanup_pop(1);
    return result;
}

int thrd_create(thrd_t *to, thrd_start_t function, void *word) {
    struct slot *own = own_slot();
    struct start_c11 *start = own != NULL ? malloc(sizeof *start) : NULL;
    struct slot *s = start != NULL ? taken_slot() : NULL;
    if (s == NULL) {
        free(start);
        return real_thrd_create()(to, function, word);
    }
    s->begins = (const void *)(uintptr_t)function;
    *start = (struct start_c11){function, word, s};
    atomic_fetch_add(&living, 1);
    int result = real_thrd_create()(to, run_c11, start);
    if (result != thrd_success) {
        atomic_fetch_sub(&living, 1);
        atomic_store(&s->state, FREE);
        free(start);
    }
    return result;
}

__attribute__((noreturn)) void thrd_exit(int result) {
    main_ends();
    real_thrd_exit()(result);
    __builtin_unreachable();
}

/* ---- waits. A call that is a cancellation point is one here, and no other is. */
#define HERE __builtin_extract_return_addr(__builtin_return_address(0)), __builtin_frame_address(0)
#define CANCELLABLE(kind, object, call) \
    int result; \
    struct slot *s = own_slot(); \
    wait_begins(s, kind, object, HERE); \
    pthread_cleanup_push(wait_ends, s); \
    result = call; \
    pthread_cleanup_pop(1); \
    return result
#define TRIED_FIRST(kind, type, name, tried, busy) \
    static __attribute__((noinline)) int waits_##name(type *object, const void *from, const void *frame) { \
        struct slot *s = own_slot(); \
        wait_begins(s, kind, object, from, frame); \
        int result = real_##name()(object); \
        wait_ends(s); \
        return result; \
    } \
    int name(type *object) { \
        int result = real_##tried()(object); \
        return __builtin_expect(result != busy, 1) ? result : waits_##name(object, HERE); \
    }

int pthread_join(pthread_t thread, void **to) { CANCELLABLE(JOIN, (const void *)(uintptr_t)thread, real_pthread_join()(thread, to)); }
int pthread_cond_wait(pthread_cond_t *c, pthread_mutex_t *m) { CANCELLABLE(CONDITION, c, real_pthread_cond_wait()(c, m)); }
int thrd_join(thrd_t thread, int *to) { CANCELLABLE(JOIN, (const void *)(uintptr_t)thread, real_thrd_join()(thread, to)); }
int cnd_wait(cnd_t *c, mtx_t *m) { CANCELLABLE(CONDITION, c, real_cnd_wait()(c, m)); }
int sem_wait(sem_t *t) { CANCELLABLE(SEMAPHORE, t, real_sem_wait()(t)); }

/* ---- what is called once: whoever comes while another thread makes the call waits for that one. When the call ends in any way, by an exception or a cancellation too, it is
 * nobody's any more; then one of those that wait may make it anew. */
enum { UNDER_WAY = 1, DONE = 2 };
_Static_assert(sizeof(once_flag) == sizeof(pthread_once_t), "both are one word, in which glibc counts");

static void routine_ends(void *word) {
    const struct once *call = word;
    runs_once = call->outer;
    gives_back(call->control);
}

/* The call is this thread's. */
static void run_routine(void) {
    const struct once *call = calls_once;
    struct once runs = {call->control, call->routine, runs_once};
    calls_once = call->outer;
    runs_once = &runs;
    wait_ends(mine);
    takes(mine, runs.control);
    pthread_cleanup_push(routine_ends, &runs);
    runs.routine();
    pthread_cleanup_pop(1);
}

static inline int state_of(void *control) { return __atomic_load_n((int *)control, __ATOMIC_ACQUIRE); }

static inline struct slot *once_begins(struct once *call, const void *from, const void *frame) {
    struct slot *s = state_of(call->control) & UNDER_WAY ? own_slot() : mine;
    calls_once = call;
    wait_begins(s, ONCE, call->control, from, frame);
    return s;
}

static inline void once_ends(const struct once *call, struct slot *s) {
    calls_once = call->outer;
    wait_ends(s);
}

int pthread_once(pthread_once_t *control, void (*routine)(void)) {
    if (__builtin_expect(state_of(control) & DONE, 1)) {
        return 0;
    }
    struct once call = {control, routine, calls_once};
    struct slot *s = once_begins(&call, HERE);
    int result = real_pthread_once()(control, run_routine);
    once_ends(&call, s);
    return result;
}

void call_once(once_flag *control, void (*routine)(void)) {
    if (__builtin_expect(state_of(control) & DONE, 1)) {
        return;
    }
    struct once call = {control, routine, calls_once};
    struct slot *s = once_begins(&call, HERE);
    real_call_once()(control, run_routine);
    once_ends(&call, s);
}

int pthread_barrier_wait(pthread_barrier_t *b) {
    struct slot *s = own_slot();
    wait_begins(s, BARRIER, b, HERE);
    int result = real_pthread_barrier_wait()(b);
    wait_ends(s);
    return result;
}

TRIED_FIRST(MUTEX, pthread_mutex_t, pthread_mutex_lock, pthread_mutex_trylock, EBUSY)
TRIED_FIRST(RWLOCK, pthread_rwlock_t, pthread_rwlock_rdlock, pthread_rwlock_tryrdlock, EBUSY)
TRIED_FIRST(RWLOCK, pthread_rwlock_t, pthread_rwlock_wrlock, pthread_rwlock_trywrlock, EBUSY)
TRIED_FIRST(MUTEX, mtx_t, mtx_lock, mtx_trylock, thrd_busy)

/* ---- teams of GCC's OpenMP. Its members are known: a thread waits for each of the team that has not come yet. */
struct region { void (*function)(void *); void *word; unsigned number; struct slot *first; const void *from; int (*size)(void); };

OPENMP(int, omp_get_num_threads, void)

static void region(void *word) {
    struct region *r = word;
    struct slot *s = own_slot();
    if (s == NULL) {
        r->function(r->word);
        return;
    }
    wait_ends(s);
    atomic_store(&s->team.at_end, false);
    atomic_store(&s->team.barriers, 0);
    atomic_store(&s->team.size, r->size != NULL ? (unsigned)r->size() : 0);
    atomic_store(&s->team.first, r->first);
    s->team.from = r->from;
    atomic_store(&s->team.number, r->number);
    r->function(r->word);
    const void *from = s->team.from;
    atomic_store(&s->team.at_end, true);
    wait_begins(s, TEAM_END, NULL, from, NULL);
}

struct kept_team { unsigned number, size, barriers; struct slot *first; bool at_end; const void *from; };

static struct kept_team team_of(struct slot *s) {
    struct kept_team t = {0};
    if (s != NULL) {
        t = (struct kept_team){atomic_load(&s->team.number), atomic_load(&s->team.size), atomic_load(&s->team.barriers), atomic_load(&s->team.first), atomic_load(&s->team.at_end), s->team.from};
    }
    return t;
}

static void back_to_team(struct slot *s, struct kept_team t) {
    if (s != NULL) {
        wait_ends(s);
        atomic_store(&s->team.number, 0);
        atomic_store(&s->team.size, t.size);
        atomic_store(&s->team.barriers, t.barriers);
        atomic_store(&s->team.first, t.first);
        atomic_store(&s->team.at_end, t.at_end);
        s->team.from = t.from;
        atomic_store(&s->team.number, t.number);
    }
}

/* Where no library has the function, the thread is alone, and does what the team would. */
#define REGION(name, ...) \
    const void *from = FROM; \
    struct slot *s = own_slot(); \
    struct kept_team outer = team_of(s); \
    struct region r = {function, word, atomic_fetch_add(&team_numbers, 1) + 1, s, from, real_omp_get_num_threads(from)}; \
    if (real_##name(from) == NULL) { \
        function(word); \
        return; \
    } \
    real_##name(from)(region, &r, __VA_ARGS__); \
    back_to_team(s, outer)
#define LOOP_REGION(name) \
    OPENMP(void, name, void (*)(void *), void *, unsigned, long, long, long, long, unsigned) \
    void name(void (*function)(void *), void *word, unsigned n, long a, long b, long c, long d, unsigned flags) { REGION(name, n, a, b, c, d, flags); }
#define PLAIN_LOOP_REGION(name) \
    OPENMP(void, name, void (*)(void *), void *, unsigned, long, long, long, unsigned) \
    void name(void (*function)(void *), void *word, unsigned n, long a, long b, long c, unsigned flags) { REGION(name, n, a, b, c, flags); }
OPENMP(void, GOMP_parallel, void (*)(void *), void *, unsigned, unsigned)
void GOMP_parallel(void (*function)(void *), void *word, unsigned n, unsigned flags) { REGION(GOMP_parallel, n, flags); }
OPENMP(void, GOMP_parallel_sections, void (*)(void *), void *, unsigned, unsigned, unsigned)
void GOMP_parallel_sections(void (*function)(void *), void *word, unsigned n, unsigned count, unsigned flags) { REGION(GOMP_parallel_sections, n, count, flags); }
LOOP_REGION(GOMP_parallel_loop_static)
LOOP_REGION(GOMP_parallel_loop_dynamic)
LOOP_REGION(GOMP_parallel_loop_guided)
LOOP_REGION(GOMP_parallel_loop_nonmonotonic_dynamic)
LOOP_REGION(GOMP_parallel_loop_nonmonotonic_guided)
PLAIN_LOOP_REGION(GOMP_parallel_loop_runtime)
PLAIN_LOOP_REGION(GOMP_parallel_loop_nonmonotonic_runtime)
PLAIN_LOOP_REGION(GOMP_parallel_loop_maybe_nonmonotonic_runtime)

static struct slot *team_wait_begins(const void *from, const void *frame) {
    struct slot *s = own_slot();
    if (s == NULL || atomic_load_explicit(&s->team.number, memory_order_relaxed) == 0) {
        return NULL;
    }
    atomic_store(&s->team.barriers, atomic_load_explicit(&s->team.barriers, memory_order_relaxed) + 1);
    wait_begins(s, TEAM, NULL, from, frame);
    return s;
}

#define TEAM_WAIT(result, name) \
    OPENMP(result, name, void) \
    result name(void) { \
        result (*real)(void) = real_##name(FROM); \
        if (real == NULL) { \
            return (result)0; \
        } \
        struct slot *s = team_wait_begins(HERE); \
        TEAM_CALL_##result \
    }
#define TEAM_CALL_void real(); wait_ends(s);
#define TEAM_CALL_bool bool was_cancelled = real(); wait_ends(s); return was_cancelled;
TEAM_WAIT(void, GOMP_barrier)
TEAM_WAIT(void, GOMP_loop_end)
TEAM_WAIT(void, GOMP_sections_end)
TEAM_WAIT(bool, GOMP_barrier_cancel)
TEAM_WAIT(bool, GOMP_loop_end_cancel)
TEAM_WAIT(bool, GOMP_sections_end_cancel)

/* Whoever comes first through a single region with copyprivate goes on, and comes to the barrier of the others at its end. */
OPENMP(void *, GOMP_single_copy_start, void)
void *GOMP_single_copy_start(void) {
    void *(*real)(void) = real_GOMP_single_copy_start(FROM);
    if (real == NULL) {
        return NULL;
    }
    struct slot *s = team_wait_begins(HERE);
    void *copied = real();
    if (s != NULL && copied == NULL) {
        atomic_fetch_sub(&s->team.barriers, 1);
    }
    wait_ends(s);
    return copied;
}

OPENMP(void, GOMP_single_copy_end, void *)
void GOMP_single_copy_end(void *data) {
    void (*real)(void *) = real_GOMP_single_copy_end(FROM);
    if (real != NULL) {
        struct slot *s = team_wait_begins(HERE);
        real(data);
        wait_ends(s);
    }
}

/* The tasks that a task waits for: whoever of the team finds them runs them, so any thread may act; and the turns of an ordered loop. The thread itself runs tasks
 * meanwhile, in which it may wait for something else; then it counts as one that runs, until the outer wait is over. */
#define ANY_WAIT(kind, name, parameters, words) \
    OPENMP(void, name, UNBRACKETED parameters) \
    void name parameters { \
        void (*real) parameters = real_##name(FROM); \
        if (real != NULL) { \
            struct slot *s = own_slot(); \
            wait_begins(s, kind, s, HERE); \
            real words; \
            wait_ends(s); \
        } \
    }
ANY_WAIT(TASKS, GOMP_taskwait, (void), ())
ANY_WAIT(TASKS, GOMP_taskwait_depend, (void **depend), (depend))
ANY_WAIT(TASKS, GOMP_taskgroup_end, (void), ())
ANY_WAIT(TASKS, GOMP_taskloop, (void (*function)(void *), void *data, void (*copy)(void *, void *), long size, long align, unsigned flags, unsigned long tasks, int priority, long from,
    long to, long step), (function, data, copy, size, align, flags, tasks, priority, from, to, step))
ANY_WAIT(TASKS, GOMP_taskloop_ull, (void (*function)(void *), void *data, void (*copy)(void *, void *), long size, long align, unsigned flags, unsigned long tasks, int priority,
    unsigned long long from, unsigned long long to, unsigned long long step), (function, data, copy, size, align, flags, tasks, priority, from, to, step))
ANY_WAIT(ORDERED, GOMP_ordered_start, (void), ())

/* What a thread that takes a lock of OpenMP does, and one that gives it back. */
#define TAKES(kind, name, object, parameters, words) TAKES_BEHIND(false, kind, name, object, parameters, words)
#define TAKES_BEHIND(tried, kind, name, object, parameters, words) \
    OPENMP(void, name, UNBRACKETED parameters) \
    void name parameters { \
        const void *from = FROM; \
        void (*real) parameters = real_##name(from); \
        if (real == NULL) { \
            return; \
        } \
        struct slot *s = own_slot(); \
        if (tried) { \
            takes(s, object); \
            return; \
        } \
        wait_begins(s, kind, object, HERE); \
        real words; \
        wait_ends(s); \
        takes(s, object); \
    }
#define GIVES_BACK(name, object, parameters, words) \
    OPENMP(void, name, UNBRACKETED parameters) \
    void name parameters { \
        void (*real) parameters = real_##name(FROM); \
        gives_back(object); \
        if (real != NULL) { \
            real words; \
        } \
    }
#define TRIES(name, parameters, words) \
    OPENMP(int, name, UNBRACKETED parameters) \
    static int tries_##name(const void *from, void *lock) { return real_##name(from) != NULL ? real_##name(from)(lock) : 0; } \
    int name parameters { \
        int taken = real_##name(FROM) != NULL ? tries_##name(FROM, lock) : 1; \
        if (taken) { \
            takes(own_slot(), lock); \
        } \
        return taken; \
    }
TRIES(omp_test_lock, (void *lock), (lock))
TRIES(omp_test_lock_, (void *lock), (lock))
TAKES(CRITICAL, GOMP_critical_start, &unnamed_critical, (void), ())
TAKES(CRITICAL, GOMP_critical_name_start, name, (void **name), (name))
TAKES_BEHIND(tries_omp_test_lock(from, lock), OMP_LOCK, omp_set_lock, lock, (void *lock), (lock))
TAKES_BEHIND(tries_omp_test_lock_(from, lock), OMP_LOCK, omp_set_lock_, lock, (void *lock), (lock))
GIVES_BACK(GOMP_critical_end, &unnamed_critical, (void), ())
GIVES_BACK(GOMP_critical_name_end, name, (void **name), (name))
GIVES_BACK(omp_unset_lock, lock, (void *lock), (lock))
GIVES_BACK(omp_unset_lock_, lock, (void *lock), (lock))

/* A lock that its holder may take again is given back when it is the last time. How often it is taken says a further taking, which whoever has it is never denied, and
 * which is given back at once. */
#define NESTED(set, test, unset) \
    TRIES(test, (void *lock), (lock)) \
    TAKES_BEHIND(tries_##test(from, lock) != 0, OMP_LOCK, set, lock, (void *lock), (lock)) \
    OPENMP(void, unset, void *) \
    void unset(void *lock) { \
        const void *from = FROM; \
        void (*real)(void *) = real_##unset(from); \
        int taken = mine != NULL ? tries_##test(from, lock) : 0; \
        if (taken == 2) { \
            gives_back(lock); \
        } \
        if (real != NULL && taken > 0) { \
            real(lock); \
        } \
        if (real != NULL) { \
            real(lock); \
        } \
    }
NESTED(omp_set_nest_lock, omp_test_nest_lock, omp_unset_nest_lock)
NESTED(omp_set_nest_lock_, omp_test_nest_lock_, omp_unset_nest_lock_)

/* ---- for the watcher of Python 3.8 to 3.12: the values of a frame's locals, each with a reference of its own. It is called with Python's lock held, and so at one moment;
 * nothing of it is of use where the frame is not laid out as those versions have it, and then its code is another than the one that is given. */
long armus_frame_values(const char *frame, long to_inner, long to_code, const void *code, long to_values, long count, uintptr_t *values) {
    const char *inner = to_inner == 0 ? frame : *(const char *const *)(frame + to_inner);
    if (inner == NULL || *(const void *const *)(inner + to_code) != code) {
        return 0;
    }
    for (long i = 0; i < count; i++) {
        values[i] = ((const uintptr_t *)(inner + to_values))[i];
        int32_t *references = (int32_t *)values[i];
        if (references != NULL && *references >= 0) {           /* one that is below 0 is never given back */
            ++*(intptr_t *)references;
        }
    }
    return count;
}

/* ---- std::barrier, std::latch and what else waits by libc's syscall(SYS_futex). All other calls go on to libc as they came. */
#ifdef __x86_64__
static long (*volatile real_syscall)(long, ...) __attribute__((used));

__attribute__((constructor, used)) static void find_syscall(void) { real_syscall = (long (*)(long, ...))dlsym(RTLD_NEXT, "syscall"); }

__attribute__((used)) static long futex_call(long number, long a, long b, long c, long d, long e, long f) {
    int call = (int)b & FUTEX_CMD_MASK;
    struct slot *s = (call == FUTEX_WAIT || call == FUTEX_WAIT_BITSET) && d == 0 ? own_slot() : NULL;
    wait_begins(s, ADDRESS, (const void *)a, HERE);
    long result = real_syscall(number, a, b, c, d, e, f);
    wait_ends(s);
    return result;
}

__asm__(".text\n.globl syscall\n.type syscall,@function\nsyscall:\n"
        "  mov real_syscall(%rip), %rax\n  test %rax, %rax\n  jz 1f\n"
        "2: cmp $202, %rdi\n  je 3f\n  jmp *%rax\n"
        "3: jmp futex_call\n"
        "1: push %rdi\n  push %rsi\n  push %rdx\n  push %rcx\n  push %r8\n  push %r9\n  sub $8, %rsp\n  call find_syscall\n  add $8, %rsp\n"
        "  pop %r9\n  pop %r8\n  pop %rcx\n  pop %rdx\n  pop %rsi\n  pop %rdi\n  mov real_syscall(%rip), %rax\n  jmp 2b\n"
        ".size syscall,.-syscall\n");
#endif

/* The last of the constructors: what was looked for and not found is no error of the program's, which may ask for its own. */
__attribute__((constructor)) static void forget_errors(void) { dlerror(); }
