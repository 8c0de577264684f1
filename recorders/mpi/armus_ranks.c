/* The recorder of MPI programs: a library that is loaded before the program's own and stands between it and MPI by the profiling interface, in C and in Fortran. One
 * build for each MPI. A call counts what it begins and says in the slot of its thread for what it waits; a watcher in each rank announces every 50 ms what was counted
 * and who stood in the same call at several looks. No rank asks another one for anything, and the watcher calls no MPI.
 *
 * With ARMUS_GUARD there is no watcher. A rank that has to wait first writes what it counted, asks, and reads its answer; where that refuses, the call gives an error. As long
 * as it runs nobody is stuck because of it, so its counts need not be known before.
 *
 * All lines of a rank are about itself: its phase on world.Barrier is the number of barriers of world that it came to, on 0>1.world.7 the number of messages with tag 7
 * that rank 0 sent to rank 1 in world, on 1<0.world.7 the number of receives that rank 1 began for such messages. Different collectives are different phasers, so that two
 * that do not fit are told. Who has sent no message with a tag does not know that somebody waits for one. So the counts of messages are comments; armus-run makes a member
 * of each that somebody waits for. */
#define _GNU_SOURCE
#include <dlfcn.h>
#include <elf.h>
#include <errno.h>
#include <fcntl.h>
#include <linux/membarrier.h>
#include <mpi.h>
#include <netdb.h>
#include <poll.h>
#include <pthread.h>
#include <signal.h>
#include <stdarg.h>
#include <stdatomic.h>
#include <stdbool.h>
#include <stdint.h>
#include <stdio.h>
#include <stdlib.h>
#include <string.h>
#include <sys/resource.h>
#include <sys/socket.h>
#include <sys/stat.h>
#include <sys/syscall.h>
#include <sys/un.h>
#include <time.h>
#include <unistd.h>
#include "../c/armus_file.h"

enum kind { BARRIER, ALLREDUCE, ALLGATHER, ALLGATHERV, ALLTOALL, ALLTOALLV, ALLTOALLW, REDUCE_SCATTER, REDUCE_SCATTER_BLOCK, IBARRIER, IALLREDUCE, IALLGATHER,
            IALLTOALL, DUP, SPLIT, WIN_CREATE, WIN_FENCE, WIN_FREE, FINALIZE,   /* all wait for all */
            SCAN, EXSCAN,                           /* the last rank waits for all */
            REDUCE, GATHER, GATHERV,                /* the root waits for all */
            BCAST, SCATTER, SCATTERV, IBCAST, KINDS, /* all wait for the root */
            SEND, KEPT, RECEIVE, POST, COMPLETE, ANY, ABROAD, ONE_OF, ALL_OF, LATER_ONE, LATER_ALL /* of requests that the watcher looks at */, NONE };
static const char *const kind_names[KINDS] = {"Barrier", "Allreduce", "Allgather", "Allgatherv", "Alltoall", "Alltoallv", "Alltoallw", "Reduce_scatter",
    "Reduce_scatter_block", "Ibarrier", "Iallreduce", "Iallgather", "Ialltoall", "Comm_dup", "Comm_split", "Win_create", "Win_fence", "Win_free", "Finalize", "Scan", "Exscan", "Reduce", "Gather", "Gatherv", "Bcast",
    "Scatter", "Scatterv", "Ibcast"};
#define FIRST_OF_LAST SCAN
#define FIRST_ROOTED REDUCE
#define FIRST_FROM_ROOT BCAST
enum { FROM_ROOT = KINDS - BCAST, RANKS = 128, WINDOW_RANKS = 32, THREADS = 64, REQUESTS = 1024, PARTS = 32, FEW = 8, SHORT = 65536, LINE = 512, NAME = 40, OF_PHASER = 28, PERIOD = 50, REACHED_IN = 2000 };
enum { EXACT_TAGS = 1024, TAG_CLASSES = 64, CHANNELS = 16384, BUCKETS = 4096, COUNTS_IN_A_LOOK = 1000, EVERY_TAG = -1, ANY_RANK = -1, NO_RANK = -2, LONG_PATIENCE = 10 };

/* The messages between this rank and another one in a communicator, of one tag or of all together. Tags from EXACT_TAGS on are counted by classes. Receives that name no
 * source or no tag are counted apart, at ANY_RANK and EVERY_TAG, and where it is known what they took, there. */
struct channel {
    struct communicator *of;
    int peer, tag;                                  /* the other one's rank in world */
    _Atomic(unsigned) sent, given_up;               /* messages to it; those of them that were cancelled */
    _Atomic(unsigned) begun, under_way, taken;      /* receives from it; requests of them that are not done; messages that came */
    _Atomic(struct slot *) user;                    /* the thread that uses it */
    _Atomic(bool) has_users;                        /* several do: nothing is known of their order */
    unsigned said_sent, said_begun;                 /* the watcher's */
    struct channel *every;                          /* that of all tags together */
    struct channel *next, *next_of_same;            /* of the table; of the communicator */
};

struct communicator {
    bool named, gone, between;                      /* between: an inter-communicator, whose collectives wait for the other side alone */
    char name[OF_PHASER + 1];                       /* the first part of its phasers' names */
    int size, me, side;
    int *world;                                     /* the rank in world of each rank */
    int peers;                                      /* those that a message may go to: of an inter-communicator the other side */
    int *peer;                                      /* their ranks in world */
    _Atomic(unsigned) came[KINDS];
    unsigned said[KINDS];                           /* the watcher's: what is announced; of those from a root only where this rank is the root */
    bool joined;
    _Atomic(unsigned) *from[FROM_ROOT];             /* how often each root was one */
    unsigned made, windows;                         /* communicators and windows made from it */
    struct epochs *epochs;                          /* of a window; else nothing */
    _Atomic(struct channel *) channels;
    unsigned *said_wild;                            /* the watcher's: of each rank of world, the receives that name no tag */
    bool abroad;                                    /* with ranks of a world that this one spawned, or of the one that spawned it */
    struct communicator *next;
};

/* The epochs of a window between this rank and each other one, of windows with few ranks. */
struct epochs {
    _Atomic(unsigned) posted[WINDOW_RANKS], completed[WINDOW_RANKS];  /* how often this rank opened its memory to that one; how often it was done with that one's */
    unsigned started[WINDOW_RANKS];                 /* how often it began to use that one's */
    unsigned said_posted[WINDOW_RANKS], said_completed[WINDOW_RANKS];
    int target[WINDOW_RANKS], targets, origin[WINDOW_RANKS], origins;  /* of the epochs that go on */
};

/* One of several requests that a call waits for. */
struct part { int kind, peer, place; unsigned needs; struct communicator *of; struct channel *channel; };

/* What is known of a request. */
struct request { MPI_Request handle; int kind, peer; unsigned needs; bool there, begins_again; struct communicator *of; struct channel *channel; };

struct slot {
    _Atomic(unsigned) count;                        /* odd: in a call that may wait */
    _Atomic(int) kind, peer;
    _Atomic(struct communicator *) of;
    _Atomic(struct channel *) channel;
    _Atomic(unsigned) needs;
    _Atomic(const void *) from;
    int depth;
    unsigned told;                                  /* the counter of the wait that was announced, or 0 */
    struct part part[PARTS];                        /* of ONE_OF and ALL_OF; written before the counter */
    int parts;
    const struct request *later[PARTS];             /* of LATER_ONE and LATER_ALL; written before the counter */
    char refusal[LINE];                             /* the sentence by which the call was refused */
    char task[NAME + 24];
    /* the watcher's */
    bool announced;
    unsigned seen, stood;
    unsigned number;                                /* of the announced wait, where it has a wildcard or several requests */
    bool any;                                       /* it has a wildcard of its own */
    int told_parts;                                 /* how many requests are tasks of their own now */
    const char *part_word;                          /* how they are called */
    struct part view, view_part[PARTS];             /* what the call waits for, as it was found at this look */
    int view_parts;
    struct part waits[PARTS];
};

#define FAST static inline __attribute__((always_inline))         /* what each call does */
static struct slot slots[THREADS];
static _Atomic(unsigned) slot_count;
#define OWN static __thread __attribute__((tls_model("initial-exec")))
OWN struct slot *mine;
static _Atomic(struct communicator *) all;
static struct communicator world, unnamed = {.name = "others"};       /* unnamed: has the messages of all that have no name */
static int key = MPI_KEYVAL_INVALID, window_key = MPI_KEYVAL_INVALID, rank = -1, size;
static struct channel nowhere = {.every = &nowhere};  /* of messages that are not counted any more */
static _Atomic(struct channel *) channels[BUCKETS];
static _Atomic(unsigned) channel_count, sent_abroad, taken_abroad;
static unsigned said_sent_abroad, said_taken_abroad;
static _Atomic(bool) sends_uncounted, receives_uncounted, sources_unknown, on;    /* sources_unknown: a message came of which it is not known from whom */
static bool left_sends, left_receives, shared, others_unknown;
static bool concurrent;                             /* several threads may be in MPI at once */
static char job[16], process[NAME];
static int out = -1;
static struct stat out_stat;
static pthread_mutex_t line_lock = PTHREAD_MUTEX_INITIALIZER;   /* of two threads of the recorder's own lines: held for one look, never in a call of MPI */
static pthread_mutex_t made_lock = PTHREAD_MUTEX_INITIALIZER;   /* of the table of inter-communicators */
static pthread_mutex_t channel_lock = PTHREAD_MUTEX_INITIALIZER;   /* of new channels: never held in a call of MPI */
static pthread_t watcher;
static _Atomic(bool) stopping;

/* ---- the guard */
enum { ANSWER_IN = 10000, COUNTED = 4 };             /* milliseconds; how much a call counts */
static bool guard, has_threads;                     /* it asks; several threads call MPI, and it asks no more */
OWN bool may_fail;                      /* the call that begins is one of C, which gives an error */
OWN _Atomic(unsigned) *counted[COUNTED];  /* what it counted already, and takes back where it is refused */
static void ask(struct slot *s);
static void asks_no_more(void);

/* A call begins that may be refused. */
static void asks_now(void) {
    if (guard) {
        may_fail = true;
        memset(counted, 0, sizeof counted);
    }
}

/* Adds to a counter, which others only read unless several threads call MPI at once. What it was. */
FAST unsigned adds(_Atomic(unsigned) *counter, unsigned n) {
    if (concurrent) {
        return atomic_fetch_add(counter, n);
    }
    unsigned was = atomic_load_explicit(counter, memory_order_relaxed);
    atomic_store_explicit(counter, was + n, memory_order_release);
    return was;
}

FAST unsigned counts_at(_Atomic(unsigned) *counter) {
    for (int i = 0; __builtin_expect(guard, 0) && i < COUNTED; i++) {
        if (counted[i] == NULL || i == COUNTED - 1) {
            counted[i] = counter;
            break;
        }
    }
    return adds(counter, 1);
}

static bool is_refused(const struct slot *s) { return s != NULL && s->refusal[0] != 0; }

/* ---- lines */
static char text[1 << 17];
static size_t length;

static void hand_over(void) {
    struct stat now;
    bool same = out >= 0 && fstat(out, &now) == 0 && now.st_ino == out_stat.st_ino && now.st_dev == out_stat.st_dev;
    if (length > 0 && out >= 0 && (!same || send(out, text, length, MSG_DONTWAIT | MSG_NOSIGNAL) != (ssize_t)length)) {
        if (same) {
            close(out);
        }
        out = -1;
        atomic_store(&on, false);
    }
    length = 0;
}

__attribute__((format(printf, 1, 2))) static void say(const char *form, ...) {
    va_list words;
    if (length > sizeof text - 2 * LINE) {
        hand_over();
    }
    va_start(words, form);
    int n = vsnprintf(text + length, LINE, form, words);
    va_end(words);
    if (n > 0 && n < LINE) {
        length += (size_t)n;
        text[length++] = '\n';
    }
}

static const char *place(const void *from) {
    static char found[300];
    Dl_info info;
    if (from == NULL || !file_of(from, &info)) {
        return "MPI";
    }
    char program[220] = "";
    if (info.dli_fname[0] != '/') {
        ssize_t n = readlink("/proc/self/exe", program, sizeof program - 1);
        program[n > 0 ? n : 0] = 0;
    }
    bool fixed = ((const Elf64_Ehdr *)info.dli_fbase)->e_type == ET_EXEC;
    snprintf(found, sizeof found, "%.220s+%#lx", program[0] != 0 ? program : info.dli_fname, (unsigned long)((uintptr_t)from - 1 - (fixed ? 0 : (uintptr_t)info.dli_fbase)));
    return found;
}

/* ---- the slot of a thread. Who ends a call counts, and then looks whether its wait was announced; the watcher announces a wait, and then looks whether it ended. So that
 * one of the two sees the other, the watcher has all threads of the rank pass a barrier in between, which costs nothing elsewhere. */
static bool has_barrier;

static void pass_barrier(void) {
    if (has_barrier) {
        syscall(SYS_membarrier, MEMBARRIER_CMD_PRIVATE_EXPEDITED, 0, 0);
    }
    atomic_thread_fence(memory_order_seq_cst);
}

static __attribute__((noinline)) struct slot *new_slot(void) {
    unsigned i = atomic_fetch_add(&slot_count, 1);
    if (i < THREADS) {
        if (i == 0) {
            snprintf(slots[i].task, sizeof slots[i].task, "%srank-%d", process, rank);
        } else {
            snprintf(slots[i].task, sizeof slots[i].task, "%srank-%d.thread-%u", process, rank, i);
        }
        mine = &slots[i];
    }
    return mine;
}

FAST struct slot *own_slot(void) { return __builtin_expect(mine != NULL, 1) ? mine : new_slot(); }

static __attribute__((noinline)) void may_ask(struct slot *s, bool wants) {
    s->refusal[0] = 0;
    if (s != slots) {
        asks_no_more();
    } else if (wants) {
        ask(s);
    }
}

FAST struct slot *begins_as(struct part p, const void *from) {
    struct slot *s = atomic_load_explicit(&on, memory_order_relaxed) ? own_slot() : NULL;
    bool fails_here = may_fail;
    may_fail = false;                               /* a call inside of another one is MPI's own */
    if (s == NULL || s->depth++ > 0) {
        return NULL;
    }
    unsigned count = atomic_load_explicit(&s->count, memory_order_relaxed);
    atomic_store_explicit(&s->kind, p.kind, memory_order_relaxed);
    atomic_store_explicit(&s->of, p.of, memory_order_relaxed);
    atomic_store_explicit(&s->channel, p.channel, memory_order_relaxed);
    atomic_store_explicit(&s->peer, p.peer, memory_order_relaxed);
    atomic_store_explicit(&s->needs, p.needs, memory_order_relaxed);
    atomic_store_explicit(&s->from, from, memory_order_relaxed);
    atomic_store_explicit(&s->count, count + 1, memory_order_release);
    if (__builtin_expect(guard, 0)) {
        may_ask(s, fails_here && (p.kind < KINDS || p.kind == RECEIVE));
    }
    return s;
}

FAST struct slot *begins(enum kind kind, struct communicator *of, int peer, unsigned needs, const void *from) {
    return begins_as((struct part){.kind = kind, .of = of, .peer = peer, .needs = needs}, from);
}

/* Each request that was waited for was a task of its own, which ends; and each wildcard with it. */
static void goes_on(struct slot *s) {
    for (int i = 0; i < s->told_parts; i++) {
        if (s->waits[i].kind == ANY || s->waits[i].kind == ABROAD) {
            say("%s?any-%u.%d end", process, s->number, s->waits[i].place);
        }
        say("%s.%s-%d go", s->task, s->part_word, s->waits[i].place);
        if (!s->any) {
            say("%s.%s-%d leave %srequests-%u", s->task, s->part_word, s->waits[i].place, process, s->number);
        }
    }
    if (s->any) {
        say("%s?any-%u end", process, s->number);
    }
    say("%s go", s->task);
    for (int i = 0; i < s->told_parts; i++) {
        say("%s.%s-%d end", s->task, s->part_word, s->waits[i].place);
    }
    s->any = false;
    s->told_parts = 0;
    __atomic_store_n(&s->told, 0, __ATOMIC_SEQ_CST);
}

static __attribute__((noinline)) void ends_told(struct slot *s) {
    pthread_mutex_lock(&line_lock);
    if (s->told != 0) {
        goes_on(s);
        hand_over();
    }
    pthread_mutex_unlock(&line_lock);
}

static inline void ends(struct slot *s) {
    if (mine != NULL && mine->depth > 0 && s == NULL) {
        mine->depth--;
        return;
    }
    if (s != NULL) {
        s->depth--;
        atomic_store_explicit(&s->count, atomic_load_explicit(&s->count, memory_order_relaxed) + 1, memory_order_release);
        atomic_signal_fence(memory_order_seq_cst);
        if (!has_barrier) {
            atomic_thread_fence(memory_order_seq_cst);
        }
        if (__builtin_expect(__atomic_load_n(&s->told, __ATOMIC_RELAXED) != 0, 0)) {    /* its wait was announced: it goes on before it does anything else */
            ends_told(s);
        }
    }
}

/* What the call waited for has come. It stands in the same call no more before anything is counted: what is read for its wait would be of the next one. */
FAST void returned(struct slot *s) {
    if (s != NULL) {
        atomic_store_explicit(&s->count, atomic_load_explicit(&s->count, memory_order_relaxed) + 2, memory_order_relaxed);
        atomic_thread_fence(memory_order_release);
    }
}

/* A call that does not wait: what it calls itself is inside of it. */
FAST struct slot *passes(const void *from) {
    struct slot *s = atomic_load_explicit(&on, memory_order_relaxed) ? own_slot() : NULL;
    if (__builtin_expect(guard, 0)) {
        return begins(NONE, NULL, -1, 0, from);
    }
    if (s == NULL || s->depth++ > 0) {
        return NULL;
    }
    atomic_store_explicit(&s->from, from, memory_order_relaxed);
    return s;
}

FAST void passed(struct slot *s) {
    if (__builtin_expect(guard, 0)) {
        ends(s);
    } else if (mine != NULL && mine->depth > 0) {
        mine->depth--;
    }
}

FAST bool is_inside(void) { return mine != NULL && mine->depth > 0; }

FAST bool counts(void) { return atomic_load_explicit(&on, memory_order_relaxed) && !is_inside(); }

/* ---- the watcher */
static const char *holder(void) {
    static char name[NAME + 24];
    snprintf(name, sizeof name, shared ? "%s?rank-%d" : "%srank-%d", process, rank);
    return name;
}

static void moves(const char *phaser, unsigned *said, unsigned now, bool joined) {
    if (joined && now == *said + 1) {
        say("%s arrive %s/%s", holder(), job, phaser);
    } else if (!joined || now != *said) {
        if (joined) {
            say("%s leave %s/%s", holder(), job, phaser);
        }
        say("%s join %s/%s %u", holder(), job, phaser, now);
    }
    *said = now;
}

/* The phaser of what one rank of a window does for another one. */
static void epoch_phaser(char *to, const struct communicator *c, int kind, int from, int for_whom) {
    snprintf(to, 2 * NAME, "%s.%s-%d-for-%d", c->name, kind == POST ? "Win_post" : "Win_complete", c->world[from], c->world[for_whom]);
}

/* The phaser of a kind; of an inter-communicator each side has its own, at which the other one waits. */
static void phaser_of(char *to, const struct communicator *c, int kind, int root, bool waits) {
    if (kind >= FIRST_FROM_ROOT) {
        snprintf(to, 2 * NAME, "%s.%s-from-%d", c->name, kind_names[kind], root);
    } else if (c->between) {
        snprintf(to, 2 * NAME, "%s.%s-of-%s", c->name, kind_names[kind], (c->side == 0) != waits ? "one" : "two");
    } else {
        snprintf(to, 2 * NAME, "%s.%s", c->name, kind_names[kind]);
    }
}

/* What the counts of a window's epochs say. */
static void say_epochs(struct communicator *c, bool leaves) {
    char phaser[2 * NAME];
    for (int r = 0; r < c->size && c->size <= WINDOW_RANKS; r++) {
        for (int posts = 0; posts < 2 && r != c->me; posts++) {
            unsigned now = atomic_load(posts ? &c->epochs->posted[r] : &c->epochs->completed[r]);
            unsigned *said = posts ? &c->epochs->said_posted[r] : &c->epochs->said_completed[r];
            if (leaves || !c->joined || now != *said) {
                epoch_phaser(phaser, c, posts ? POST : COMPLETE, c->me, r);
                leaves ? say("%s leave %s/%s", holder(), job, phaser) : moves(phaser, said, now, c->joined);
            }
        }
    }
}

/* What a communicator's counts say. leaves: the rank is no member of any of its phasers any more. */
static void say_communicator(struct communicator *c, bool leaves) {
    char phaser[2 * NAME];
    for (int kind = 0; kind < KINDS; kind++) {
        bool of_window = kind == WIN_FENCE || kind == WIN_FREE;
        if (of_window != (c->epochs != NULL) || (kind == FINALIZE && c != &world) || (c->between && kind >= FIRST_OF_LAST)) {
            continue;
        }
        unsigned now = atomic_load(kind >= FIRST_FROM_ROOT ? &c->from[kind - FIRST_FROM_ROOT][c->me] : &c->came[kind]);
        if (leaves || !c->joined || now != c->said[kind]) {
            phaser_of(phaser, c, kind, c->me, false);
            leaves ? say("%s leave %s/%s", holder(), job, phaser) : moves(phaser, &c->said[kind], now, c->joined);
        }
    }
    if (c->epochs != NULL) {
        say_epochs(c, leaves);
    }
    c->joined = !leaves;
}

/* ---- the counts of messages */
FAST int class_of(int tag) { return tag == MPI_ANY_TAG ? EVERY_TAG : tag < EXACT_TAGS ? tag : EXACT_TAGS + tag % TAG_CLASSES; }

static inline _Atomic(struct channel *) *bucket_of(const struct communicator *c, int peer, int tag) {
    return &channels[((uintptr_t)c / 64 * 1023u + (unsigned)peer * 31u + (unsigned)tag) % BUCKETS];
}

FAST struct channel *found(const struct communicator *c, int peer, int tag) {
    struct channel *k = atomic_load_explicit(bucket_of(c, peer, tag), memory_order_acquire);
    while (k != NULL && (k->of != c || k->peer != peer || k->tag != tag)) {
        k = k->next;
    }
    return k;
}

/* A new channel, unless another thread has made it meanwhile. */
static struct channel *new_channel(struct communicator *of, int peer, int tag, struct channel *every) {
    _Atomic(struct channel *) *bucket = bucket_of(of, peer, tag);
    pthread_mutex_lock(&channel_lock);
    struct channel *k = found(of, peer, tag);
    if (k == NULL && atomic_load(&channel_count) < CHANNELS && (k = calloc(1, sizeof *k)) != NULL) {
        atomic_fetch_add(&channel_count, 1);
        k->of = of;
        k->peer = peer;
        k->tag = tag;
        k->every = every != NULL ? every : k;
        k->next = atomic_load(bucket);
        k->next_of_same = atomic_load(&of->channels);
        atomic_store_explicit(bucket, k, memory_order_release);
        atomic_store_explicit(&of->channels, k, memory_order_release);
    }
    pthread_mutex_unlock(&channel_lock);
    if (k == NULL) {
        atomic_store(&sends_uncounted, true);
        atomic_store(&receives_uncounted, true);
    }
    return k != NULL ? k : &nowhere;
}

/* The channel of a peer, or of ANY_RANK, and a class of tags; nowhere, where there are too many. */
static __attribute__((noinline)) struct channel *first_channel_of(struct communicator *of, int peer, int tag) {
    struct channel *every = NULL;
    if (tag != EVERY_TAG) {
        every = found(of, peer, EVERY_TAG);
        every = every != NULL ? every : new_channel(of, peer, EVERY_TAG, NULL);
    }
    return new_channel(of, peer, tag, every);
}

FAST struct channel *channel_of(struct communicator *c, int peer, int tag) {
    struct communicator *of = c->named ? c : &unnamed;
    struct channel *k = found(of, peer, tag);
    return __builtin_expect(k != NULL, 1) ? k : first_channel_of(of, peer, tag);
}

/* How many receives a communicator has begun that name no tag, and this source or none. */
static unsigned wild_from(struct communicator *c, int peer) {
    unsigned n = 0;
    for (int any = 0; any < 2; any++) {
        int from = any ? ANY_RANK : peer;
        const struct channel *k = found(c, from, EVERY_TAG);
        n += k != NULL ? atomic_load(&k->begun) : 0;
    }
    return n;
}

/* The phaser of what one rank of world sent to the other one ('>'), or began to take from it ('<'), in a channel. */
static void message_phaser(char *to, int whose, char way, int other, const struct channel *k) {
    char tag[16] = "any";
    if (k->tag != EVERY_TAG) {
        snprintf(tag, sizeof tag, k->tag < EXACT_TAGS ? "%d" : "x%d", k->tag < EXACT_TAGS ? k->tag : k->tag - EXACT_TAGS);
    }
    snprintf(to, 2 * NAME, "%d%c%d.%s.%s", whose, way, other, k->of->name, tag);
}

static int say_count(unsigned *said, unsigned now, int other, char way, const struct channel *k) {
    char phaser[2 * NAME];
    if (*said == now) {
        return 0;
    }
    *said = now;
    message_phaser(phaser, rank, way, other, k);
    say("# count %s/%s %u", job, phaser, now);
    return 1;
}

/* What a channel's counts say now. A receive that names no source may be of each one's channel. */
static int say_channel(struct communicator *c, struct channel *k) {
    if (k->peer == ANY_RANK) {
        for (int r = 0; k->tag != EVERY_TAG && atomic_load(&k->begun) > 0 && r < size; r++) {
            channel_of(c, r, k->tag);
        }
        return 0;
    }
    int lines = left_sends ? 0 : say_count(&k->said_sent, atomic_load(&k->sent), k->peer, '>', k);
    if (!left_receives && k->tag != EVERY_TAG) {
        const struct channel *any = found(c, ANY_RANK, k->tag);
        unsigned wild = (any != NULL ? atomic_load(&any->begun) : 0) + wild_from(c, k->peer);      /* first, so that none is missed that is counted there now */
        lines += say_count(&k->said_begun, wild + atomic_load(&k->begun), k->peer, '<', k);
    }
    return lines;
}

/* What a communicator's messages say: of channels that are not counted one by one the receives that name no tag. How many lines it wrote. */
static int say_channels(struct communicator *c) {
    int lines = 0;
    for (int wild = 1; wild >= 0; wild--) {         /* those that make channels for others first */
        for (struct channel *k = atomic_load(&c->channels); k != NULL && lines < COUNTS_IN_A_LOOK; k = k->next_of_same) {
            lines += (k->peer == ANY_RANK) == wild ? say_channel(c, k) : 0;
        }
    }
    if (c->said_wild == NULL) {
        c->said_wild = calloc((size_t)size, sizeof *c->said_wild);
    }
    for (int r = 0; r < size && !left_receives && c->said_wild != NULL; r++) {
        unsigned wild = wild_from(c, r);
        if (wild != c->said_wild[r]) {
            c->said_wild[r] = wild;
            say("# base %s/%d<%d.%s. %u", job, rank, r, c->name, wild);
            lines++;
        }
    }
    return lines;
}

/* Nobody waits for this rank's messages, or for its receives, any more. */
static void leaves_messages(bool sends, bool *left) {
    if (!*left && size <= RANKS) {
        say("# uncounted %s/%d%c", job, rank, sends ? '>' : '<');
    }
    *left = true;
}

/* What the counts of messages say, before a wait is told: whether it is all of it. */
static bool say_messages(void) {
    int lines = 0;
    if (atomic_load(&sends_uncounted)) {
        leaves_messages(true, &left_sends);
    }
    if (atomic_load(&receives_uncounted)) {
        leaves_messages(false, &left_receives);
    }
    if (size <= RANKS && !(left_sends && left_receives)) {
        for (struct communicator *c = atomic_load(&all); c != NULL && lines < COUNTS_IN_A_LOOK; c = c->next) {
            lines += atomic_load(&c->channels) != NULL ? say_channels(c) : 0;
        }
        lines += lines < COUNTS_IN_A_LOOK && atomic_load(&unnamed.channels) != NULL ? say_channels(&unnamed) : 0;
    }
    unsigned sent = atomic_load(&sent_abroad), taken = atomic_load(&taken_abroad);
    if (sent != said_sent_abroad || taken != said_taken_abroad) {
        say("# abroad %u %u", said_sent_abroad = sent, said_taken_abroad = taken);
    }
    return lines < COUNTS_IN_A_LOOK;
}

static void say_counts(void) {
    for (struct communicator *c = atomic_load(&all); c != NULL; c = c->next) {
        if (c->named && !c->gone) {
            say_communicator(c, false);
        }
    }
}

/* Who plays the part of this rank where somebody waits for its messages. */
static void say_players(void) {
    unsigned n = atomic_load(&slot_count) < THREADS ? atomic_load(&slot_count) : THREADS;
    char line[LINE];
    size_t k = (size_t)snprintf(line, sizeof line, "# plays");
    for (unsigned i = 0; i < n && k < sizeof line; i++) {
        k += (size_t)snprintf(line + k, sizeof line - k, " %s", slots[i].task);
    }
    say("%s", k < LINE - 1 ? line : "# plays any");
}

/* A second thread that calls MPI: from now on the rank's part is that of one of its threads. */
static void share(void) {
    unsigned n = atomic_load(&slot_count) < THREADS ? atomic_load(&slot_count) : THREADS;
    static unsigned shared_by;
    char line[LINE];
    if (n < 2 || n == shared_by) {
        return;
    }
    if (!shared) {
        for (struct communicator *c = atomic_load(&all); c != NULL; c = c->next) {
            if (c->joined) {
                say_communicator(c, true);
            }
        }
    }
    shared = true;
    say_players();
    size_t k = (size_t)snprintf(line, sizeof line, "%s of", holder());
    for (unsigned i = 0; i < n && k < sizeof line; i++) {
        k += (size_t)snprintf(line + k, sizeof line - k, " %s", slots[i].task);
    }
    if (k < LINE - 1) {
        say("%s", line);
    } else {
        say("%s any", holder());
    }
    shared_by = n;
}

/* The event that a call or a request waits for: a phaser of this job and, in part->needs, its phase. False where it may come without the others. */
static bool event_of(char *phaser, const struct part *p) {
    struct communicator *c = p->of;
    if (p->kind < KINDS) {
        bool waits = c != NULL && c->named && (p->kind < FIRST_OF_LAST || (p->kind < FIRST_ROOTED ? c->me == c->size - 1 : p->kind < FIRST_FROM_ROOT ? p->peer == c->me : p->peer != c->me));
        if (waits) {
            phaser_of(phaser, c, p->kind, p->peer, true);
        }
        return waits;
    }
    if (p->kind == POST || p->kind == COMPLETE) {
        epoch_phaser(phaser, c, p->kind, p->peer, c->me);
        return true;
    }
    if ((p->kind != SEND && p->kind != RECEIVE) || size > RANKS || p->channel == NULL || p->channel == &nowhere || p->channel->peer < 0) {
        return false;
    }
    message_phaser(phaser, p->channel->peer, p->kind == SEND ? '<' : '>', rank, p->channel);
    return true;
}

/* A wildcard of those that may send from a communicator: a member of the phaser of the same name. */
static void say_any(const char *name, const struct communicator *c) {
    char line[LINE];
    size_t k = (size_t)snprintf(line, sizeof line, "%s?%s of", process, name);
    bool known = c->peers > 1 && !c->abroad;
    for (int r = 0; r < c->peers && k < sizeof line; r++) {
        known &= c->peer[r] >= 0;
        if (c->peer[r] != rank) {
            k += (size_t)snprintf(line + k, sizeof line - k, " %s:%d/rank-%d", job, c->peer[r], c->peer[r]);
        }
    }
    if (k < LINE - 1 && known && !others_unknown) {
        say("%s", line);
    } else {
        say("%s?%s any", process, name);
    }
    say("%s?%s join %s%s 0", process, name, process, name);
}

static bool is_wild(const struct part *p) { return p->kind == ANY || p->kind == ABROAD; }

/* What a thread waits for, all of it or one: each part is a task of its own that waits for its event. */
static void say_parts(struct slot *s, bool all, const char *at) {
    char phaser[2 * NAME], name[NAME], line[LINE];
    size_t k = (size_t)snprintf(line, sizeof line, "%s?any-%u of", process, s->number);
    for (int i = 0; i < s->told_parts; i++) {
        const struct part *p = &s->waits[i];
        say("%s.%s-%d at @%s", s->task, s->part_word, p->place, at);
        k += k < sizeof line ? (size_t)snprintf(line + k, sizeof line - k, " %s.%s-%d", s->task, s->part_word, p->place) : 0;
        if (all) {
            say("%s.%s-%d join %srequests-%u 0", s->task, s->part_word, p->place, process, s->number);
        }
    }
    if (!all) {
        say(k < LINE - 1 ? "%s" : "%.0s%s?any-%u any", line, process, s->number);
        say("%s?any-%u join %srequests-%u 0", process, s->number, process, s->number);
        s->any = true;
    }
    for (int i = 0; i < s->told_parts; i++) {
        const struct part *p = &s->waits[i];
        if (is_wild(p)) {
            snprintf(name, sizeof name, "any-%u.%d", s->number, p->place);
            say_any(name, p->of);
            say("%s.%s-%d wait %s%s 1 @%s", s->task, s->part_word, p->place, process, name, at);
        } else {
            event_of(phaser, p);
            say("%s.%s-%d wait %s/%s %u @%s", s->task, s->part_word, p->place, job, phaser, p->needs, at);
        }
    }
    say("%s wait %srequests-%u 1 @%s", s->task, process, s->number, at);
}

/* Several requests. False where they may come without the others. */
static bool say_requests(struct slot *s, const char *at) {
    bool all = s->view.kind == ALL_OF;
    char phaser[2 * NAME];
    int n = s->view_parts;
    memcpy(s->waits, s->view_part, sizeof s->waits[0] * (size_t)n);
    for (int i = 0; i < n; i++) {
        if (!is_wild(&s->waits[i]) && !event_of(phaser, &s->waits[i])) {
            if (!all) {
                return false;                                  /* this one may come */
            }
            s->waits[i--] = s->waits[--n];
        }
    }
    s->told_parts = n;
    s->part_word = "request";
    if (n > 0) {
        say_parts(s, all, at);
    }
    return n > 0;
}

/* A message of one tag from anybody: one from each of the others, as far as it is known what came from them. */
static bool say_sources(struct slot *s, struct communicator *c, const struct channel *wild, const char *at) {
    int n = 0;
    bool is_known = wild != NULL && wild != &nowhere && size <= RANKS && c->peers <= PARTS && !c->abroad && !atomic_load(&sources_unknown);
    for (int r = 0; is_known && r < c->peers; r++) {
        is_known = c->peer[r] >= 0;
        if (is_known && (c->peer[r] != rank || shared)) {
            struct channel *k = channel_of(c, c->peer[r], wild->tag);
            s->waits[n++] = (struct part){.kind = RECEIVE, .place = c->peer[r], .needs = atomic_load(&k->taken) + 1, .channel = k};
            is_known = k != &nowhere;
        }
    }
    s->told_parts = is_known ? n : 0;
    s->part_word = "from";
    if (s->told_parts > 0) {
        say_parts(s, false, at);
    }
    return s->told_parts > 0;
}

static bool is_send(int kind) { return kind == SEND || kind == KEPT; }

/* Whether a message of one channel has to come before the last one of the other. */
static bool comes_before(const struct channel *one, const struct channel *other) {
    return one == other || (other->tag == EVERY_TAG && one->of == other->of && one->peer == other->peer);
}

/* What a call waits for: the requests that are under way, each a part; nothing where one of them may be done without the others. Of receives from one rank that all have to
 * come the second needs one message more than the first. */
static struct part wanted_parts(int n, const struct request *const *known_ones, bool all, struct part *to, int *parts) {
    struct part none = {.kind = NONE, .peer = -1};
    unsigned sends = 0, others = 0;
    bool whole = true;
    for (int i = 0; i < n; i++) {
        const struct request *r = known_ones[i];
        if (r != NULL && !(r->begins_again && r->needs == 0)) {
            whole &= r->kind != NONE && r->needs > 0;
            sends += is_send(r->kind);
            others += !is_send(r->kind) && r->kind != NONE;
        }
    }
    bool sends_alone = all && others == 0;              /* it may be that all but one went off without a word: then one has still to be taken */
    *parts = 0;
    if ((sends_alone || !all) && !whole) {
        return none;
    }
    for (int i = 0; i < n; i++) {
        const struct request *r = known_ones[i];
        if (r == NULL || r->kind == NONE || r->needs == 0 || (all && others > 0 && is_send(r->kind))) {
            continue;
        }
        if (*parts == PARTS) {
            if (!all || sends_alone) {
                return none;
            }
            break;
        }
        unsigned needs = r->needs;
        if (r->kind == RECEIVE) {
            needs = atomic_load(&r->channel->taken) + 1;
            for (int k = 0; k < *parts && all; k++) {
                needs += to[k].kind == RECEIVE && comes_before(to[k].channel, r->channel);
            }
        }
        to[(*parts)++] = (struct part){r->kind, r->peer, i, needs, r->of, r->channel};
    }
    return *parts == 1 && sends + others == 1 ? to[0] : *parts == 0 ? none : (struct part){.kind = all && !sends_alone ? ALL_OF : ONE_OF, .peer = -1};
}

/* What the call of a thread waits for. False where it does not stand in this call any more. */
static bool views(struct slot *s, unsigned count) {
    struct request copies[PARTS];
    const struct request *all[PARTS];
    s->view = (struct part){.kind = atomic_load(&s->kind), .peer = atomic_load(&s->peer), .needs = atomic_load(&s->needs), .of = atomic_load(&s->of), .channel = atomic_load(&s->channel)};
    bool is_later = s->view.kind == LATER_ONE || s->view.kind == LATER_ALL;
    int n = is_later ? s->view.peer : s->parts;
    if (n < 0 || n > PARTS) {
        return false;                                          /* of two calls */
    }
    for (int i = 0; i < n; i++) {
        if (is_later) {
            all[i] = s->later[i];
            copies[i] = all[i] != NULL ? *all[i] : (struct request){.kind = NONE};
        } else {
            s->view_part[i] = s->part[i];
        }
    }
    s->view_parts = n;
    atomic_thread_fence(memory_order_seq_cst);
    if (atomic_load(&s->count) != count) {
        return false;                                          /* what was read may be of two calls */
    }
    if (is_later) {
        for (int i = 0; i < n; i++) {
            all[i] = all[i] != NULL ? &copies[i] : NULL;
        }
        s->view = wanted_parts(n, all, s->view.kind == LATER_ALL, s->view_part, &s->view_parts);
    }
    return true;
}

static bool wait_line(struct slot *s) {
    struct part p = s->view;
    char phaser[2 * NAME], at[300];
    static unsigned numbers;
    snprintf(at, sizeof at, "%s", place(atomic_load(&s->from)));
    if (is_wild(&p) && p.of != NULL) {
        s->number = ++numbers;
        if (p.kind == ANY && say_sources(s, p.of, p.channel, at)) {
            return true;
        }
        if (s->stood + 1 < LONG_PATIENCE) {
            return false;
        }
        s->any = true;
        snprintf(phaser, sizeof phaser, "any-%u", s->number);
        say_any(phaser, p.of);
        say("%s wait %s%s 1 @%s", s->task, process, phaser, at);
        return true;
    }
    if (p.kind == ONE_OF || p.kind == ALL_OF) {
        s->number = ++numbers;
        return say_requests(s, at);
    }
    if (event_of(phaser, &p)) {
        say("%s wait %s/%s %u @%s", s->task, job, phaser, p.needs, at);
        return true;
    }
    return false;
}

/* So many looks a call has to stand in. A collective waits for the others in any case; a message that is on its way, or that is sent without a word, goes on by itself. */
static unsigned patience(const struct slot *s) {
    int kind = s->view.kind;
    return kind < KINDS ? 2 : kind == SEND || kind == RECEIVE || kind == ANY ? 3 : LONG_PATIENCE;
}

/* A wait is announced where the thread still stands in it behind the last word: else all of it is taken back before it is written. */
static void announce(struct slot *s, unsigned count) {
    if (length > sizeof text - 2 * (PARTS + 2) * LINE) {
        hand_over();
    }
    size_t before = length;
    bool waits = wait_line(s);
    if (waits) {
        __atomic_store_n(&s->told, count, __ATOMIC_SEQ_CST);
        pass_barrier();
    }
    if (!waits || __atomic_load_n(&s->count, __ATOMIC_SEQ_CST) != count) {
        length = before;
        s->any = false;
        s->told_parts = 0;
        __atomic_store_n(&s->told, 0, __ATOMIC_SEQ_CST);
    }
}

static void look(void) {
    unsigned n = atomic_load(&slot_count) < THREADS ? atomic_load(&slot_count) : THREADS, counts[THREADS];
    pthread_mutex_lock(&line_lock);
    for (unsigned i = 0; i < n; i++) {
        struct slot *s = &slots[i];
        counts[i] = atomic_load(&s->count);
        s->stood = counts[i] % 2 == 1 && counts[i] == s->seen ? s->stood + 1 : 0;
        s->seen = counts[i];
        if (s->told != 0 && (s->told != counts[i] || (i == 0 && !shared && n > 1))) {
            goes_on(s);
        }
        if (!s->announced) {
            say("%s at @%s", s->task, place(atomic_load(&s->from)));
            s->announced = true;
        }
    }
    share();
    if (shared || slots[0].told == 0) {
        say_counts();
    }
    for (unsigned i = 0, whole = 2; i < n && whole > 0; i++) {
        struct slot *s = &slots[i];
        if (s->stood > 0 && s->told == 0 && views(s, counts[i]) && s->stood >= patience(s) - 1) {
            whole = whole == 2 ? say_messages() : whole;
            if (whole > 0) {
                announce(s, counts[i]);
            }
        }
    }
    hand_over();
    pthread_mutex_unlock(&line_lock);
}

/* ---- questions */
/* Several threads of a rank call MPI: nobody is refused because of this rank any more, and nothing of it is. */
static void asks_no_more(void) {
    pthread_mutex_lock(&line_lock);
    if (!has_threads) {
        has_threads = true;
        if (slots[0].told != 0) {
            goes_on(&slots[0]);
        }
        for (struct communicator *c = atomic_load(&all); c != NULL; c = c->next) {
            if (c->joined) {
                say_communicator(c, true);
            }
        }
        leaves_messages(true, &left_sends);
        leaves_messages(false, &left_receives);
        hand_over();
    }
    pthread_mutex_unlock(&line_lock);
}

static void turns_off(const char *why) {
    if (atomic_exchange(&on, false) && why != NULL) {
        char line[LINE];
        int n = snprintf(line, sizeof line, "armus: %s: from now on every wait of rank %d is let through\n", why, rank);
        say("# off");
        hand_over();
        if (n > 0 && write(2, line, (size_t)n) < 0) {
            return;                                            /* there is nobody to be told */
        }
    }
}

/* Whether this is the answer. */
static bool is_answer(struct slot *s, char *line) {
    if (strcmp(line, "off") == 0) {
        turns_off(NULL);
        return true;
    }
    char *name = strchr(line, ' ');
    size_t n = strlen(s->task);
    if (name == NULL || strncmp(name + 1, s->task, n) != 0 || (name[1 + n] != 0 && name[1 + n] != ':')) {
        return false;
    }
    if (line[0] == 'r') {
        snprintf(s->refusal, sizeof s->refusal, "%s", name[1 + n] == ':' ? name + n + 3 : "a deadlock");
    }
    if (line[0] != 'w') {
        __atomic_store_n(&s->told, 0, __ATOMIC_SEQ_CST);       /* it was refused, or it waits unseen */
    }
    return true;
}

/* Reads up to the answer. No other thread reads. */
static void take_answer(struct slot *s) {
    static char kept[8192];
    static size_t have;
    struct timespec now, begun;
    clock_gettime(CLOCK_MONOTONIC, &begun);
    for (bool is_there = false; !is_there && atomic_load(&on);) {
        char *end = memchr(kept, '\n', have);
        if (end != NULL) {
            *end = 0;
            is_there = is_answer(s, kept);
            have -= (size_t)(end + 1 - kept);
            memmove(kept, end + 1, have);
            continue;
        }
        clock_gettime(CLOCK_MONOTONIC, &now);
        long left = ANSWER_IN - (now.tv_sec - begun.tv_sec) * 1000 - (now.tv_nsec - begun.tv_nsec) / 1000000;
        struct pollfd reached = {.fd = out, .events = POLLIN};
        if (left <= 0 || have == sizeof kept) {
            turns_off("no answer came in 10 seconds");
        } else if (poll(&reached, 1, (int)left) > 0) {
            ssize_t got = recv(out, kept + have, sizeof kept - have, MSG_DONTWAIT);
            have += got > 0 ? (size_t)got : 0;
            if (got == 0 || (got < 0 && errno != EAGAIN && errno != EINTR)) {
                turns_off("no answer comes any more");
            }
        }
    }
}

/* What was counted, and the question; then the answer. */
static void ask(struct slot *s) {
    int saved = errno;
    bool asks = false;
    pthread_mutex_lock(&line_lock);
    if (!has_threads && out >= 0) {
        say_counts();
        asks = say_messages() && views(s, atomic_load(&s->count)) && wait_line(s);
        if (asks) {
            __atomic_store_n(&s->told, atomic_load(&s->count), __ATOMIC_SEQ_CST);
        }
        hand_over();
    }
    pthread_mutex_unlock(&line_lock);
    if (asks && atomic_load(&on)) {
        take_answer(s);
    }
    errno = saved;
}

/* What a refused call gives, by the error handler of its communicator. It has not begun: what it counted is taken back. */
static int fails(struct slot *s, MPI_Comm handle) {
    static int class = -1;
    char line[MPI_MAX_ERROR_STRING];
    int code = MPI_ERR_OTHER;
    for (int i = 0; i < COUNTED; i++) {
        if (counted[i] != NULL) {
            atomic_fetch_sub(counted[i], 1);
        }
    }
    pthread_mutex_lock(&line_lock);
    say_counts();
    say_messages();
    hand_over();
    pthread_mutex_unlock(&line_lock);
    snprintf(line, sizeof line, "deadlock: %.*s", (int)sizeof line - 20, s->refusal);
    s->refusal[0] = 0;
    if (class >= 0 || PMPI_Add_error_class(&class) == MPI_SUCCESS) {
        PMPI_Add_error_string(class, "a wait that would never end");
        if (PMPI_Add_error_code(class, &code) == MPI_SUCCESS) {
            PMPI_Add_error_string(code, line);
        }
    }
    PMPI_Comm_call_errhandler(handle, code);
    return code;
}

static void *watch(void *nothing) {
    struct timespec pause = {0, PERIOD * 1000000L};
    while (!atomic_load(&stopping) && out >= 0) {
        look();
        nanosleep(&pause, NULL);
    }
    return nothing;
}

/* ---- communicators */
static void forget_all_of(const struct communicator *c);

static int *ranks_in_world(MPI_Group group, int n) {
    MPI_Group of_world;
    int *to = malloc(2 * sizeof(int) * (size_t)(n > 0 ? n : 1));
    for (int r = 0; r < n; r++) {
        to[n + r] = r;
    }
    PMPI_Comm_group(MPI_COMM_WORLD, &of_world);
    PMPI_Group_translate_ranks(group, n, to + n, of_world, to);
    PMPI_Group_free(&of_world);
    for (int r = 0; r < n; r++) {
        to[r] = to[r] == MPI_UNDEFINED ? -1 : to[r];
    }
    return to;
}

static int least_of(const int *ranks, int n) {
    int least = ranks[0];
    for (int r = 1; r < n; r++) {
        least = ranks[r] < least ? ranks[r] : least;
    }
    return least;
}

static void enlist(struct communicator *c) {
    c->next = atomic_load(&all);
    while (!atomic_compare_exchange_weak(&all, &c->next, c)) {
        continue;
    }
}

static void known_ranks(struct communicator *c, MPI_Comm handle) {
    MPI_Group own, others;
    int between = 0;
    PMPI_Comm_test_inter(handle, &between);
    PMPI_Comm_size(handle, &c->size);
    PMPI_Comm_rank(handle, &c->me);
    PMPI_Comm_group(handle, &own);
    c->world = c->peer = ranks_in_world(own, c->size);
    c->peers = c->size;
    PMPI_Group_free(&own);
    c->between = between;
    if (between) {
        PMPI_Comm_remote_size(handle, &c->peers);
        PMPI_Comm_remote_group(handle, &others);
        c->peer = ranks_in_world(others, c->peers);
        PMPI_Group_free(&others);
        c->side = least_of(c->world, c->size) > least_of(c->peer, c->peers);
    }
    for (int k = 0; k < FROM_ROOT; k++) {
        c->from[k] = calloc((size_t)c->size, sizeof *c->from[k]);
    }
    enlist(c);
}

static MPI_Comm last_handle;                        /* the communicator that was asked for last, where one thread at a time asks */
static struct communicator *last_known;

/* What is known of a communicator; of one that came in a way that is not wrapped, who belongs to it. */
static __attribute__((noinline)) struct communicator *asked(MPI_Comm handle) {
    void *found = NULL;
    int is_there = 0;
    if (handle == MPI_COMM_NULL || key == MPI_KEYVAL_INVALID) {
        return NULL;
    }
    PMPI_Comm_get_attr(handle, key, &found, &is_there);
    struct communicator *c = is_there ? found : calloc(1, sizeof *c);
    if (!is_there) {
        known_ranks(c, handle);
        PMPI_Comm_set_attr(handle, key, c);
    }
    if (!concurrent) {
        last_handle = handle;
        last_known = c;
    }
    return c;
}

FAST struct communicator *known(MPI_Comm handle) {
    if (handle == MPI_COMM_WORLD) {
        return &world;
    }
    return !concurrent && last_known != NULL && handle == last_handle ? last_known : asked(handle);
}

/* The name of a communicator or window that was made of another one. The name of a phaser has room for 64 bytes: a long one has its hash in its place. */
static void names(struct communicator *c, const struct communicator *parent, const char *form, ...) {
    char own[NAME], whole[2 * NAME];
    uint64_t h = 14695981039346656037u;
    va_list words;
    va_start(words, form);
    vsnprintf(own, sizeof own, form, words);
    va_end(words);
    snprintf(whole, sizeof whole, "%s%s%s", parent == &world ? "" : parent->name, parent == &world ? "" : ".", own);
    for (const char *b = whole; *b != 0; b++) {
        h = (h ^ (unsigned char)*b) * 1099511628211u;
    }
    if (strlen(whole) <= OF_PHASER) {
        memcpy(c->name, whole, strlen(whole) + 1);
    } else {
        snprintf(c->name, sizeof c->name, "%.*s-%016lx", (int)strcspn(own, "-"), own, (unsigned long)h);
    }
    c->named = true;
}

/* A communicator gets the same name in all its ranks without a word between them: how it was made, as which one of its parent, and its first rank in world. One with a
 * rank of another world has none. */
static void made(MPI_Comm parent, MPI_Comm handle, const char *how) {
    struct communicator *p = known(parent);
    if (p != NULL && p->abroad && handle != MPI_COMM_NULL) {
        known(handle)->abroad = true;
    }
    if (p == NULL || !p->named || !atomic_load(&on)) {
        return;
    }
    p->made++;
    struct communicator *c = handle == MPI_COMM_NULL ? NULL : known(handle);
    if (c != NULL && c != &world) {
        int own = least_of(c->world, c->size), other = least_of(c->peer, c->peers);
        if (own >= 0 && other >= 0) {
            names(c, p, "%s-%u=%d", how, p->made, own < other ? own : other);
        }
    }
}

/* An inter-communicator is named by the ranks of both sides, and as which one of these; not where two threads may make one at once, which may have the other order in the
 * other rank. */
static void made_between(MPI_Comm handle) {
    struct communicator *c = known(handle);
    enum { KNOWN = 256 };
    static struct { uint32_t ranks; unsigned made; } pairs[KNOWN];
    uint32_t h = 2166136261u;
    if (c == NULL || concurrent || least_of(c->world, c->size) < 0 || least_of(c->peer, c->peers) < 0) {
        return;
    }
    for (int side = 0; side < 2; side++) {
        const int *ranks = side == c->side ? c->world : c->peer;
        int n = side == c->side ? c->size : c->peers;
        for (int r = 0; r < n; r++) {
            h = (h ^ (uint32_t)(ranks[r] + 1)) * 16777619u;
        }
        h = (h ^ 0xffffffffu) * 16777619u;
    }
    pthread_mutex_lock(&made_lock);
    for (unsigned i = 0; i < KNOWN && !c->named; i++) {
        if (pairs[i].made == 0 || pairs[i].ranks == h) {
            pairs[i].ranks = h;
            snprintf(c->name, sizeof c->name, "between-%08x-%u", (unsigned)h, ++pairs[i].made);
            c->named = true;
        }
    }
    pthread_mutex_unlock(&made_lock);
}

/* What was known of a communicator or a window is given back, where no count of its messages may still have to be told, and no other thread may be in a call with it. */
static void drop(struct communicator *c) {
    if (concurrent || atomic_load(&c->channels) != NULL || c->windows > 0) {
        return;
    }
    struct communicator *before = atomic_load(&all);
    while (before != NULL && before != c && before->next != c) {
        before = before->next;
    }
    if (before == c) {
        atomic_store(&all, c->next);
    } else if (before != NULL) {
        before->next = c->next;
    }
    forget_all_of(c);
    for (int k = 0; k < FROM_ROOT; k++) {
        free(c->from[k]);
    }
    if (c->epochs == NULL) {                        /* a window has the ranks of its communicator */
        free(c->world);
        free(c->between ? c->peer : NULL);
    }
    free(c->epochs);
    free(c->said_wild);
    free(c);
}

/* The rank has to do with a communicator or a window no more. */
static void leaves_all(struct communicator *c) {
    if (c->joined && out >= 0 && (shared || slots[0].told == 0)) {
        say_communicator(c, true);
        hand_over();
    }
    c->gone = true;
}

static int is_freed(MPI_Comm handle, int number, void *value, void *extra) {
    (void)handle, (void)number, (void)extra;
    if (last_known == value) {
        last_known = NULL;
    }
    pthread_mutex_lock(&line_lock);
    leaves_all(value);
    drop(value);
    pthread_mutex_unlock(&line_lock);
    return MPI_SUCCESS;
}

/* ---- windows */
static int window_is_freed(MPI_Win handle, int number, void *value, void *extra) {
    (void)handle, (void)number, (void)extra;
    pthread_mutex_lock(&line_lock);
    leaves_all(value);                              /* the call that frees it may still wait */
    pthread_mutex_unlock(&line_lock);
    return MPI_SUCCESS;
}

static struct communicator *known_window(MPI_Win handle) {
    void *found = NULL;
    int is_there = 0;
    if (handle != MPI_WIN_NULL && window_key != MPI_KEYVAL_INVALID) {
        PMPI_Win_get_attr(handle, window_key, &found, &is_there);
    }
    return is_there ? found : NULL;
}

/* A window has the ranks of the communicator that it was made of, and is named as which one of it. */
static void window_made(MPI_Comm parent, MPI_Win handle) {
    struct communicator *p = known(parent), *c;
    if (p == NULL || !p->named || !atomic_load(&on) || handle == MPI_WIN_NULL) {
        return;
    }
    p->windows++;
    c = calloc(1, sizeof *c);
    struct epochs *epochs = calloc(1, sizeof *epochs);
    if (c == NULL || epochs == NULL) {
        free(c);
        free(epochs);
        return;
    }
    *c = (struct communicator){.size = p->size, .me = p->me, .world = p->world, .peers = p->size, .peer = p->world, .epochs = epochs};
    names(c, p, "win-%u", p->windows);
    enlist(c);
    PMPI_Win_set_attr(handle, window_key, c);
}

/* The ranks of a group, by their numbers in the window; -1 where it is not one of few. */
static int ranks_of(MPI_Group group, MPI_Win handle, const struct communicator *c, int *to) {
    MPI_Group of_window;
    int numbers[WINDOW_RANKS], n = 0;
    PMPI_Group_size(group, &n);
    if (c->size > WINDOW_RANKS || n > WINDOW_RANKS || n > c->size) {
        return -1;
    }
    for (int i = 0; i < n; i++) {
        numbers[i] = i;
    }
    PMPI_Win_get_group(handle, &of_window);
    PMPI_Group_translate_ranks(group, n, numbers, of_window, to);
    PMPI_Group_free(&of_window);
    return n;
}

/* ---- begin and end */
static int by_tcp(const char *address) {
    char host[256], *port;
    struct addrinfo *found, wanted = {.ai_socktype = SOCK_STREAM};
    const char *bar = strchr(address, '|');
    if (bar == NULL) {
        return -1;
    }
    snprintf(host, sizeof host, "%s", bar + 1);
    port = strchr(host, '|');
    if (port == NULL) {
        return -1;
    }
    *port++ = 0;
    port[strcspn(port, "|")] = 0;
    if (getaddrinfo(host, port, &wanted, &found) != 0) {
        return -1;
    }
    int s = socket(found->ai_family, SOCK_STREAM | SOCK_CLOEXEC | SOCK_NONBLOCK, 0), error = 0;
    socklen_t length_of_error = sizeof error;
    if (s >= 0 && connect(s, found->ai_addr, found->ai_addrlen) < 0) {
        struct pollfd reached = {.fd = s, .events = POLLOUT};
        bool comes = errno == EINPROGRESS && poll(&reached, 1, REACHED_IN) == 1 && getsockopt(s, SOL_SOCKET, SO_ERROR, &error, &length_of_error) == 0 && error == 0;
        if (!comes) {
            close(s);
            s = -1;
        }
    }
    freeaddrinfo(found);
    return s;
}

static void reach(void) {
    const char *address = getenv("ARMUS_SOCKET");
    struct sockaddr_un to = {.sun_family = AF_UNIX};
    if (address == NULL) {
        return;
    }
    size_t n = strcspn(address, "|");
    int s = -1;
    if (n < sizeof to.sun_path) {
        memcpy(to.sun_path, address, n);
        s = socket(AF_UNIX, SOCK_STREAM | SOCK_CLOEXEC | SOCK_NONBLOCK, 0);
        if (s >= 0 && connect(s, (struct sockaddr *)&to, sizeof to) < 0) {
            close(s);
            s = -1;
        }
    }
    if (s < 0) {
        s = by_tcp(address);
        if (s >= 0 && getenv("ARMUS_WORD") != NULL) {
            say("# word %s", getenv("ARMUS_WORD"));
        }
    }
    if (s < 0) {
        return;
    }
    struct rlimit most;
    long high = getrlimit(RLIMIT_NOFILE, &most) == 0 && most.rlim_cur < 65536 ? (long)most.rlim_cur : 65536;
    out = fcntl(s, F_DUPFD_CLOEXEC, (int)(high - high / 16));
    if (out < 0) {
        out = s;
    } else {
        close(s);
    }
    if (fstat(out, &out_stat) < 0) {
        close(out);
        out = -1;
    }
}

static void begin(const void *from) {
    sigset_t every, own;
    MPI_Comm parent = MPI_COMM_NULL;
    const char *names[] = {"OMPI_MCA_ess_base_jobid", "OMPI_MCA_orte_ess_jobid", "PMIX_NAMESPACE"}, *id = NULL;
    int saved = errno, level = MPI_THREAD_SINGLE;
    if (atomic_load(&on) || getenv("ARMUS_SOCKET") == NULL) {
        return;
    }
    PMPI_Comm_rank(MPI_COMM_WORLD, &rank);
    PMPI_Comm_size(MPI_COMM_WORLD, &size);
    PMPI_Query_thread(&level);
    others_unknown = level >= MPI_THREAD_SERIALIZED;           /* a rank may have several tasks then */
    concurrent = level == MPI_THREAD_MULTIPLE;
    has_barrier = syscall(SYS_membarrier, MEMBARRIER_CMD_REGISTER_PRIVATE_EXPEDITED, 0, 0) == 0;
    for (unsigned i = 0; id == NULL && i < sizeof names / sizeof names[0]; i++) {
        id = getenv(names[i]);
    }
    PMPI_Comm_get_parent(&parent);
    if (id == NULL && parent == MPI_COMM_NULL) {
        id = getenv("ARMUS_WORD");                             /* the same in all ranks, and another one in each run of armus-run */
    }
    if (id != NULL) {
        unsigned long h = 5381;
        for (const char *c = id; *c != 0; c++) {
            h = h * 33 + (unsigned char)*c;
        }
        snprintf(job, sizeof job, "%lu", h % 100000);
    } else {
        snprintf(job, sizeof job, "%d", (int)getppid());       /* a world that was spawned by MPICH: its helper on this host */
        others_unknown = true;                                /* the ranks of other hosts are not known by name */
    }
    snprintf(process, sizeof process, "%s:%d/", job, rank);
    reach();
    if (out < 0) {
        return;
    }
    say("# process %s", process);
    say("# base %s/%d> 0", job, rank);
    say("# base %s/%d< 0", job, rank);
    guard = getenv("ARMUS_GUARD") != NULL;
    PMPI_Comm_create_keyval(MPI_COMM_NULL_COPY_FN, is_freed, &key, NULL);
    PMPI_Win_create_keyval(MPI_WIN_NULL_COPY_FN, window_is_freed, &window_key, NULL);
    snprintf(world.name, sizeof world.name, "world");
    world.named = true;
    known_ranks(&world, MPI_COMM_WORLD);
    atomic_store(&on, true);
    struct slot *s = own_slot();
    if (parent != MPI_COMM_NULL) {
        known(parent)->abroad = true;
        say("# spawned 0 1");
    }
    atomic_store(&s->from, from);
    look();
    say_players();                                             /* now that its task is there */
    hand_over();
    if (guard) {
        errno = saved;
        return;
    }
    sigfillset(&every);
    pthread_sigmask(SIG_SETMASK, &every, &own);
    if (pthread_create(&watcher, NULL, watch, NULL) != 0) {
        atomic_store(&on, false);
        close(out);
        out = -1;
    }
    pthread_sigmask(SIG_SETMASK, &own, NULL);
    errno = saved;
}

static void end(void) {
    if (atomic_load(&on)) {
        atomic_store(&stopping, true);
        if (!guard) {
            pthread_join(watcher, NULL);
        }
        pthread_mutex_lock(&line_lock);
        for (struct communicator *c = atomic_load(&all); c != NULL; c = c->next) {
            if (c->joined && !c->gone) {
                say_communicator(c, true);
            }
        }
        say_messages();
        leaves_messages(true, &left_sends);
        leaves_messages(false, &left_receives);
        if (shared) {
            say("%s end", holder());
        }
        for (unsigned i = 0; i < atomic_load(&slot_count) && i < THREADS; i++) {
            say("%s end", slots[i].task);
        }
        hand_over();
        atomic_store(&on, false);
        if (out >= 0) {
            close(out);
            out = -1;
        }
        pthread_mutex_unlock(&line_lock);
    }
}

#define HERE __builtin_extract_return_addr(__builtin_return_address(0))

int MPI_Init(int *count, char ***words) {
    int result = PMPI_Init(count, words);
    begin(HERE);
    return result;
}

int MPI_Init_thread(int *count, char ***words, int wanted, int *given) {
    int result = PMPI_Init_thread(count, words, wanted, given);
    begin(HERE);
    return result;
}

/* ---- collectives */
/* Counts that this rank comes to a collective: how often it has, with this time; 0 where that is not known. */
static unsigned comes(enum kind kind, struct communicator *c, int root) {
    if (c == NULL || (c->between ? kind >= FIRST_OF_LAST : kind >= FIRST_ROOTED && (root < 0 || root >= c->size))) {
        return 0;
    }
    return counts_at(kind >= FIRST_FROM_ROOT ? &c->from[kind - FIRST_FROM_ROOT][root] : &c->came[kind]) + 1;
}

static struct slot *collective(enum kind kind, MPI_Comm handle, int root, bool needs_data, const void *from) {
    if (!atomic_load_explicit(&on, memory_order_relaxed) || is_inside()) {
        return begins(NONE, NULL, 0, 0, from);
    }
    struct communicator *c = known(handle);
    unsigned needs = comes(kind, c, root);
    return begins(needs_data && needs > 0 ? kind : NONE, c, root, needs, from);
}

static bool all_send(const int *counts, MPI_Comm handle, bool is_of_own) {
    int n = 0, between = 0;
    PMPI_Comm_test_inter(handle, &between);
    if (between && !is_of_own) {
        PMPI_Comm_remote_size(handle, &n);
    } else {
        PMPI_Comm_size(handle, &n);
    }
    for (int i = 0; i < n; i++) {
        if (counts[i] == 0) {
            return false;                           /* nothing comes from there: it may go on without that rank */
        }
    }
    return true;
}

#define COLLECTIVE(KIND, name, handle, root, needs_data, parameters, words) \
    int MPI_##name parameters { \
        asks_now(); \
        struct slot *s = collective(KIND, handle, root, needs_data, HERE); \
        int result = is_refused(s) ? fails(s, handle) : PMPI_##name words; \
        ends(s); \
        return result; \
    }

COLLECTIVE(BARRIER, Barrier, h, 0, true, (MPI_Comm h), (h))
COLLECTIVE(ALLREDUCE, Allreduce, h, 0, n > 0, (const void *a, void *b, int n, MPI_Datatype t, MPI_Op o, MPI_Comm h), (a, b, n, t, o, h))
COLLECTIVE(ALLGATHER, Allgather, h, 0, m > 0, (const void *a, int n, MPI_Datatype t, void *b, int m, MPI_Datatype u, MPI_Comm h), (a, n, t, b, m, u, h))
COLLECTIVE(ALLGATHERV, Allgatherv, h, 0, all_send(m, h, false), (const void *a, int n, MPI_Datatype t, void *b, const int *m, const int *d, MPI_Datatype u, MPI_Comm h), (a, n, t, b, m, d, u, h))
COLLECTIVE(ALLTOALL, Alltoall, h, 0, m > 0, (const void *a, int n, MPI_Datatype t, void *b, int m, MPI_Datatype u, MPI_Comm h), (a, n, t, b, m, u, h))
COLLECTIVE(ALLTOALLV, Alltoallv, h, 0, all_send(m, h, false), (const void *a, const int *n, const int *c, MPI_Datatype t, void *b, const int *m, const int *d, MPI_Datatype u, MPI_Comm h), (a, n, c, t, b, m, d, u, h))
COLLECTIVE(ALLTOALLW, Alltoallw, h, 0, all_send(m, h, false), (const void *a, const int *n, const int *c, const MPI_Datatype *t, void *b, const int *m, const int *d, const MPI_Datatype *u, MPI_Comm h), (a, n, c, t, b, m, d, u, h))
COLLECTIVE(SCAN, Scan, h, 0, n > 0, (const void *a, void *b, int n, MPI_Datatype t, MPI_Op o, MPI_Comm h), (a, b, n, t, o, h))
COLLECTIVE(EXSCAN, Exscan, h, 0, n > 0, (const void *a, void *b, int n, MPI_Datatype t, MPI_Op o, MPI_Comm h), (a, b, n, t, o, h))
COLLECTIVE(REDUCE_SCATTER, Reduce_scatter, h, 0, all_send(n, h, true), (const void *a, void *b, const int *n, MPI_Datatype t, MPI_Op o, MPI_Comm h), (a, b, n, t, o, h))
COLLECTIVE(REDUCE_SCATTER_BLOCK, Reduce_scatter_block, h, 0, n > 0, (const void *a, void *b, int n, MPI_Datatype t, MPI_Op o, MPI_Comm h), (a, b, n, t, o, h))
COLLECTIVE(REDUCE, Reduce, h, r, n > 0, (const void *a, void *b, int n, MPI_Datatype t, MPI_Op o, int r, MPI_Comm h), (a, b, n, t, o, r, h))
COLLECTIVE(GATHER, Gather, h, r, m > 0, (const void *a, int n, MPI_Datatype t, void *b, int m, MPI_Datatype u, int r, MPI_Comm h), (a, n, t, b, m, u, r, h))
COLLECTIVE(GATHERV, Gatherv, h, r, false, (const void *a, int n, MPI_Datatype t, void *b, const int *m, const int *d, MPI_Datatype u, int r, MPI_Comm h), (a, n, t, b, m, d, u, r, h))
COLLECTIVE(BCAST, Bcast, h, r, n > 0, (void *a, int n, MPI_Datatype t, int r, MPI_Comm h), (a, n, t, r, h))
COLLECTIVE(SCATTER, Scatter, h, r, m > 0, (const void *a, int n, MPI_Datatype t, void *b, int m, MPI_Datatype u, int r, MPI_Comm h), (a, n, t, b, m, u, r, h))
COLLECTIVE(SCATTERV, Scatterv, h, r, m > 0, (const void *a, const int *n, const int *d, MPI_Datatype t, void *b, int m, MPI_Datatype u, int r, MPI_Comm h), (a, n, d, t, b, m, u, r, h))

int MPI_Finalize(void) {
    asks_now();
    struct slot *s = collective(FINALIZE, MPI_COMM_WORLD, 0, true, HERE);
    bool refused = is_refused(s);
    int result = refused ? fails(s, MPI_COMM_WORLD) : PMPI_Finalize();
    ends(s);
    if (!refused && !is_inside()) {                 /* inside of Fortran's own, which ends it then */
        end();
    }
    return result;
}

#define MAKES(name, how, parent, to, parameters, words) MAKES_AS(NONE, name, how, parent, to, parameters, words)
#define MAKES_AS(KIND, name, how, parent, to, parameters, words) \
    int MPI_##name parameters { \
        asks_now(); \
        struct slot *s = KIND < KINDS ? collective(KIND, parent, 0, true, HERE) : begins(NONE, NULL, 0, 0, HERE); \
        int result = is_refused(s) ? fails(s, parent) : PMPI_##name words; \
        if (s != NULL && result == MPI_SUCCESS) { \
            made(parent, *to, how); \
        } \
        ends(s); \
        return result; \
    }

MAKES_AS(DUP, Comm_dup, "dup", h, to, (MPI_Comm h, MPI_Comm *to), (h, to))
MAKES(Comm_dup_with_info, "dup", h, to, (MPI_Comm h, MPI_Info i, MPI_Comm *to), (h, i, to))
MAKES_AS(SPLIT, Comm_split, "split", h, to, (MPI_Comm h, int color, int order, MPI_Comm *to), (h, color, order, to))
MAKES(Comm_split_type, "split", h, to, (MPI_Comm h, int type, int order, MPI_Info i, MPI_Comm *to), (h, type, order, i, to))
MAKES(Comm_create, "create", h, to, (MPI_Comm h, MPI_Group g, MPI_Comm *to), (h, g, to))
MAKES(Cart_create, "cart", h, to, (MPI_Comm h, int n, const int *d, const int *p, int r, MPI_Comm *to), (h, n, d, p, r, to))
MAKES(Cart_sub, "sub", h, to, (MPI_Comm h, const int *d, MPI_Comm *to), (h, d, to))
MAKES(Graph_create, "graph", h, to, (MPI_Comm h, int n, const int *i, const int *e, int r, MPI_Comm *to), (h, n, i, e, r, to))

int MPI_Intercomm_create(MPI_Comm own, int leader, MPI_Comm through, int other, int tag, MPI_Comm *to) {
    struct slot *s = begins(NONE, NULL, 0, 0, HERE);
    int result = PMPI_Intercomm_create(own, leader, through, other, tag, to);
    if (s != NULL && result == MPI_SUCCESS && *to != MPI_COMM_NULL) {
        made_between(*to);
    }
    ends(s);
    return result;
}

/* A world that this one spawns: who may send from there is not known by name, but how many they are. */
static void has_spawned(MPI_Comm own, int root, MPI_Comm to) {
    int me = 0, n = 0;
    known(to)->abroad = true;
    PMPI_Comm_rank(own, &me);
    if (me == root) {
        PMPI_Comm_remote_size(to, &n);
        pthread_mutex_lock(&line_lock);
        say("# spawned %d 0", n);
        hand_over();
        pthread_mutex_unlock(&line_lock);
    }
}

#define SPAWNS(name, parameters, words) \
    int MPI_##name parameters { \
        struct slot *s = begins(NONE, NULL, 0, 0, HERE); \
        int result = PMPI_##name words; \
        if (s != NULL && result == MPI_SUCCESS) { \
            has_spawned(h, root, *to); \
        } \
        ends(s); \
        return result; \
    }
SPAWNS(Comm_spawn, (const char *what, char *argv[], int most, MPI_Info i, int root, MPI_Comm h, MPI_Comm *to, int *codes), (what, argv, most, i, root, h, to, codes))
SPAWNS(Comm_spawn_multiple, (int n, char *whats[], char **argvs[], const int *most, const MPI_Info *i, int root, MPI_Comm h, MPI_Comm *to, int *codes),
    (n, whats, argvs, most, i, root, h, to, codes))

MAKES(Intercomm_merge, "merge", h, to, (MPI_Comm h, int high, MPI_Comm *to), (h, high, to))

/* ---- windows. Each rank's part of one is made and freed with all others; a fence that ends an epoch waits for all. An epoch between post and wait ends when each rank
 * that it is for has completed; one between start and complete goes on when each rank that it uses has posted. Locks are not seen: the holder is not known, and the rank
 * whose memory it is may act in any call. */
#define MAKES_WINDOW(name, parameters, words) \
    int MPI_##name parameters { \
        struct slot *s = collective(WIN_CREATE, h, 0, true, HERE); \
        int result = PMPI_##name words; \
        if (s != NULL && result == MPI_SUCCESS) { \
            window_made(h, *to); \
        } \
        ends(s); \
        return result; \
    }
MAKES_WINDOW(Win_create, (void *a, MPI_Aint n, int unit, MPI_Info i, MPI_Comm h, MPI_Win *to), (a, n, unit, i, h, to))
MAKES_WINDOW(Win_allocate, (MPI_Aint n, int unit, MPI_Info i, MPI_Comm h, void *a, MPI_Win *to), (n, unit, i, h, a, to))
MAKES_WINDOW(Win_allocate_shared, (MPI_Aint n, int unit, MPI_Info i, MPI_Comm h, void *a, MPI_Win *to), (n, unit, i, h, a, to))
MAKES_WINDOW(Win_create_dynamic, (MPI_Info i, MPI_Comm h, MPI_Win *to), (i, h, to))

static struct slot *of_window(enum kind kind, MPI_Win handle, bool waits, const void *from) {
    struct communicator *c = counts() ? known_window(handle) : NULL;
    unsigned needs = comes(kind, c, 0);
    return begins(waits && needs > 0 ? kind : NONE, c, 0, needs, from);
}

int MPI_Win_fence(int how, MPI_Win w) {
    struct slot *s = of_window(WIN_FENCE, w, (how & MPI_MODE_NOPRECEDE) == 0, HERE);
    int result = PMPI_Win_fence(how, w);
    ends(s);
    return result;
}

/* One that has no locks need not wait. */
static bool has_locks(MPI_Win w) {
    MPI_Info info;
    char value[8] = "";
    int is_there = 0;
    if (PMPI_Win_get_info(w, &info) == MPI_SUCCESS) {
        PMPI_Info_get(info, "no_locks", sizeof value - 1, value, &is_there);
        PMPI_Info_free(&info);
    }
    return !is_there || strcmp(value, "true") != 0;
}

int MPI_Win_free(MPI_Win *w) {
    struct communicator *c = counts() ? known_window(*w) : NULL;
    struct slot *s = of_window(WIN_FREE, *w, counts() && has_locks(*w), HERE);
    int result = PMPI_Win_free(w);
    ends(s);
    if (c != NULL && c->gone) {
        pthread_mutex_lock(&line_lock);
        drop(c);
        pthread_mutex_unlock(&line_lock);
    }
    return result;
}

/* A call that waits until each of these ranks has posted, or completed, so often. */
static struct slot *waits_for_ranks(enum kind kind, struct communicator *c, int n, const int *ranks, const unsigned *needed, const void *from) {
    struct slot *s = counts() && c != NULL && n > 0 ? own_slot() : NULL;
    if (s == NULL) {
        return begins(NONE, NULL, 0, 0, from);
    }
    s->parts = 0;
    for (int i = 0; i < n && s->parts < PARTS; i++) {
        if (ranks[i] >= 0 && ranks[i] != c->me) {
            s->part[s->parts++] = (struct part){.kind = kind, .peer = ranks[i], .place = c->world[ranks[i]], .needs = needed[ranks[i]], .of = c};
        }
    }
    if (s->parts == 1) {
        return begins(kind, c, s->part[0].peer, s->part[0].needs, from);
    }
    return begins(s->parts == 0 ? NONE : ALL_OF, NULL, -1, 0, from);
}

int MPI_Win_post(MPI_Group g, int how, MPI_Win w) {
    struct communicator *c = counts() ? known_window(w) : NULL;
    if (c != NULL) {
        c->epochs->origins = ranks_of(g, w, c, c->epochs->origin);
        for (int i = 0; i < c->epochs->origins; i++) {
            adds(&c->epochs->posted[c->epochs->origin[i]], 1);
        }
    }
    struct slot *s = begins(NONE, NULL, 0, 0, HERE);
    int result = PMPI_Win_post(g, how, w);
    ends(s);
    return result;
}

int MPI_Win_start(MPI_Group g, int how, MPI_Win w) {
    struct communicator *c = counts() ? known_window(w) : NULL;
    if (c != NULL) {
        c->epochs->targets = ranks_of(g, w, c, c->epochs->target);
        for (int i = 0; i < c->epochs->targets; i++) {
            c->epochs->started[c->epochs->target[i]]++;
        }
    }
    struct slot *s = waits_for_ranks(POST, c, c != NULL ? c->epochs->targets : 0, c != NULL ? c->epochs->target : NULL, c != NULL ? c->epochs->started : NULL, HERE);
    int result = PMPI_Win_start(g, how, w);
    ends(s);
    return result;
}

int MPI_Win_complete(MPI_Win w) {
    struct communicator *c = counts() ? known_window(w) : NULL;
    for (int i = 0; c != NULL && i < c->epochs->targets; i++) {
        adds(&c->epochs->completed[c->epochs->target[i]], 1);
    }
    struct slot *s = waits_for_ranks(POST, c, c != NULL ? c->epochs->targets : 0, c != NULL ? c->epochs->target : NULL, c != NULL ? c->epochs->started : NULL, HERE);
    int result = PMPI_Win_complete(w);
    ends(s);
    return result;
}

int MPI_Win_wait(MPI_Win w) {
    struct communicator *c = counts() ? known_window(w) : NULL;
    unsigned needed[WINDOW_RANKS] = {0};
    for (int r = 0; c != NULL && r < WINDOW_RANKS; r++) {
        needed[r] = atomic_load(&c->epochs->posted[r]);
    }
    struct slot *s = waits_for_ranks(COMPLETE, c, c != NULL ? c->epochs->origins : 0, c != NULL ? c->epochs->origin : NULL, needed, HERE);
    int result = PMPI_Win_wait(w);
    ends(s);
    return result;
}

/* ---- messages: counted for each pair of ranks of world, communicator and tag */
FAST int world_rank(const struct communicator *c, int r) { return c != NULL && r >= 0 && r < c->peers && c->peer[r] < RANKS && c->peer[r] >= 0 ? c->peer[r] : NO_RANK; }

/* Whether this is a rank of the world that spawned this one, or that this one spawned. */
static inline bool is_abroad(const struct communicator *c, int r) { return c != NULL && c->abroad && r >= 0 && r < c->peers && c->peer[r] < 0; }

/* The channel of a message or receive; nothing where it is not counted. */
FAST struct channel *channel_at(struct communicator *c, int other, int tag) {
    int peer = c == NULL ? NO_RANK : other == MPI_ANY_SOURCE ? ANY_RANK : world_rank(c, other);
    return peer == NO_RANK || size > RANKS ? NULL : channel_of(c, peer, class_of(tag));
}

/* Whether what is begun in a channel is begun one behind the other, and each for the next message. */
FAST bool is_in_order(struct channel *k) {
    struct slot *own = own_slot(), *before = atomic_load_explicit(&k->user, memory_order_relaxed);
    if (before != own && (before != NULL || (!atomic_compare_exchange_strong(&k->user, &before, own) && before != own))) {
        atomic_store(&k->has_users, true);
    }
    return k->tag < EXACT_TAGS && k->of != &unnamed && !atomic_load(&k->has_users);
}

/* Which message of its channel is sent now. */
FAST unsigned counts_message(struct channel *k) {
    unsigned before = counts_at(&k->sent);
    counts_at(&k->every->sent);
    return is_in_order(k) ? before + 1 - atomic_load(&k->given_up) : 1;
}

/* Whether a message is so short that MPI puts it by where no receive of it has begun: its sender waits at most until there is room, which comes as soon as the other one's
 * thread runs in MPI. */
FAST bool is_short(int n, MPI_Datatype t) {
    int bytes = t == MPI_INT ? (int)sizeof(int) : t == MPI_DOUBLE ? (int)sizeof(double) : t == MPI_BYTE || t == MPI_CHAR ? 1 : 0;
    if (bytes == 0 && n > 0 && t != MPI_DATATYPE_NULL) {
        PMPI_Type_size(t, &bytes);
    }
    return bytes >= 0 && (int64_t)n * bytes <= SHORT;
}

static inline void may_keep(struct part *p, int n, MPI_Datatype t) {
    if (p->kind == SEND && is_short(n, t)) {
        p->kind = KEPT;
    }
}

/* Counts a message to a rank. What its sending may have to wait for: so many receives as it is the message of its channel; nothing where it is not counted. */
FAST struct part sends_to(struct communicator *c, int to, int tag) {
    struct channel *k = channel_at(c, to, tag);
    if (k == NULL) {
        if (is_abroad(c, to)) {
            adds(&sent_abroad, 1);
        }
        return (struct part){.kind = NONE, .peer = -1};
    }
    return (struct part){.kind = k == &nowhere ? NONE : SEND, .peer = k->peer, .needs = counts_message(k), .channel = k};
}

/* How many messages a receive that begins now needs, of a channel that names a source. Those that are under way and know their tag come first. */
static inline unsigned needed(struct channel *k) {
    return atomic_load(&k->taken) + 1 + (k->tag != EVERY_TAG && is_in_order(k) ? atomic_load(&k->under_way) : 0);
}

/* A receive is done, and this message came: what was a receive from anybody or of any tag is one of its channel now. No status: it is not known which message came. */
FAST void took(struct communicator *c, struct channel *k, const MPI_Status *status) {
    if (k == NULL || k == &nowhere) {
        return;
    }
    struct channel *of_message = k;
    if (k->peer == ANY_RANK || k->tag == EVERY_TAG) {
        int peer = status != NULL ? world_rank(c, status->MPI_SOURCE) : k->peer;
        if (peer < 0) {
            atomic_store(&sources_unknown, true);
            if (status != NULL && is_abroad(c, status->MPI_SOURCE)) {
                adds(&taken_abroad, 1);
            }
            return;
        }
        of_message = channel_of(c, peer, status != NULL ? class_of(status->MPI_TAG) : EVERY_TAG);
        if (status != NULL) {
            adds(&of_message->begun, 1);
            adds(&k->begun, -1u);
        }
    }
    adds(&of_message->taken, 1);
    if (of_message->tag != EVERY_TAG) {
        adds(&of_message->every->taken, 1);
    }
}

/* A call that receives, or that waits for a message without taking it. */
struct receive { struct communicator *of; struct channel *channel; bool is_abroad; };

FAST struct receive receive_at(MPI_Comm handle, int from, int tag) {
    struct communicator *c = counts() ? known(handle) : NULL;
    return (struct receive){c, channel_at(c, from, tag), is_abroad(c, from)};
}

static struct slot *waits_for_message(const struct receive *r, const void *at) {
    struct channel *k = r->channel;
    if (k == NULL) {
        return begins(r->is_abroad ? ABROAD : NONE, r->of, -1, 1, at);
    }
    bool any = k->peer == ANY_RANK;
    return begins_as((struct part){.kind = any ? ANY : RECEIVE, .of = r->of, .peer = k->peer, .needs = any ? 1 : needed(k), .channel = k}, at);
}

static inline struct slot *receives(const struct receive *r, const void *at) {
    struct part p = {.kind = NONE, .of = r->of, .peer = -1, .needs = 1, .channel = r->channel};
    if (r->channel == NULL) {
        return waits_for_message(r, at);
    }
    p.peer = r->channel->peer;
    p.kind = p.peer == ANY_RANK ? ANY : RECEIVE;
    p.needs = p.peer == ANY_RANK ? 1 : needed(r->channel);
    counts_at(&r->channel->begun);
    return begins_as(p, at);
}

/* Whether a message came, though perhaps not all of it had room. */
static inline bool has_come(int result) {
    int class = MPI_SUCCESS;
    if (result != MPI_SUCCESS) {
        PMPI_Error_class(result, &class);
    }
    return class == MPI_SUCCESS || class == MPI_ERR_TRUNCATE;
}

FAST void has_received(struct slot *s, const struct receive *r, int result, const MPI_Status *status) {
    returned(s);
    if (s != NULL && has_come(result)) {
        took(r->of, r->channel, result == MPI_SUCCESS ? status : NULL);
        if (r->is_abroad) {
            adds(&taken_abroad, 1);
        }
    }
}

/* A message that was not sent: the next one of its channel is the one that it would have been. */
static inline void is_sent(const struct part *p, int result) {
    if (result != MPI_SUCCESS && is_send(p->kind)) {
        adds(&p->channel->given_up, 1);
    }
}

#define SENDS(name, keeps) \
    int MPI_##name(const void *a, int n, MPI_Datatype t, int to, int tag, MPI_Comm h) { \
        struct part p = sends_to(counts() ? known(h) : NULL, to, tag); \
        keeps; \
        struct slot *s = begins_as(p, HERE); \
        int result = PMPI_##name(a, n, t, to, tag, h); \
        is_sent(&p, result); \
        ends(s); \
        return result; \
    }

SENDS(Send, may_keep(&p, n, t))
SENDS(Ssend, )
SENDS(Rsend, may_keep(&p, n, t))
SENDS(Bsend, may_keep(&p, 0, t))

int MPI_Recv(void *a, int n, MPI_Datatype t, int from, int tag, MPI_Comm h, MPI_Status *status) {
    MPI_Status own, *to = status == MPI_STATUS_IGNORE ? &own : status;
    asks_now();
    struct receive r = receive_at(h, from, tag);
    struct slot *s = receives(&r, HERE);
    bool refused = is_refused(s);
    int result = refused ? fails(s, h) : PMPI_Recv(a, n, t, from, tag, h, to);
    has_received(refused ? NULL : s, &r, result, to);
    ends(s);
    return result;
}

int MPI_Probe(int from, int tag, MPI_Comm h, MPI_Status *status) {
    asks_now();
    struct receive r = receive_at(h, from, tag);
    struct slot *s = waits_for_message(&r, HERE);
    int result = is_refused(s) ? fails(s, h) : PMPI_Probe(from, tag, h, status);
    ends(s);
    return result;
}

/* A message that is taken out of the others, to be received later: it counts as received. */
static void takes_out(struct slot *s, const struct receive *r, const MPI_Status *status) {
    returned(s);
    if (s != NULL && r->channel != NULL) {
        adds(&r->channel->begun, 1);
    }
    has_received(s, r, MPI_SUCCESS, status);
}

int MPI_Mprobe(int from, int tag, MPI_Comm h, MPI_Message *message, MPI_Status *status) {
    MPI_Status own, *to = status == MPI_STATUS_IGNORE ? &own : status;
    asks_now();
    struct receive r = receive_at(h, from, tag);
    struct slot *s = waits_for_message(&r, HERE);
    bool refused = is_refused(s);
    int result = refused ? fails(s, h) : PMPI_Mprobe(from, tag, h, message, to);
    if (!refused && result == MPI_SUCCESS) {
        takes_out(s, &r, to);
    }
    ends(s);
    return result;
}

int MPI_Improbe(int from, int tag, MPI_Comm h, int *flag, MPI_Message *message, MPI_Status *status) {
    MPI_Status own, *to = status == MPI_STATUS_IGNORE ? &own : status;
    struct receive r = receive_at(h, from, tag);
    struct slot *s = begins(NONE, NULL, 0, 0, HERE);
    int result = PMPI_Improbe(from, tag, h, flag, message, to);
    if (result == MPI_SUCCESS && *flag) {
        takes_out(s, &r, to);
    }
    ends(s);
    return result;
}

int MPI_Sendrecv(const void *a, int n, MPI_Datatype t, int to, int tag, void *b, int m, MPI_Datatype u, int from, int tag2, MPI_Comm h, MPI_Status *status) {
    MPI_Status own, *into = status == MPI_STATUS_IGNORE ? &own : status;
    asks_now();
    struct receive r = receive_at(h, from, tag2);
    sends_to(r.of, to, tag);
    struct slot *s = receives(&r, HERE);
    bool refused = is_refused(s);
    int result = refused ? fails(s, h) : PMPI_Sendrecv(a, n, t, to, tag, b, m, u, from, tag2, h, into);
    has_received(refused ? NULL : s, &r, result, into);
    ends(s);
    return result;
}

int MPI_Sendrecv_replace(void *a, int n, MPI_Datatype t, int to, int tag, int from, int tag2, MPI_Comm h, MPI_Status *status) {
    MPI_Status own, *into = status == MPI_STATUS_IGNORE ? &own : status;
    asks_now();
    struct receive r = receive_at(h, from, tag2);
    sends_to(r.of, to, tag);
    struct slot *s = receives(&r, HERE);
    bool refused = is_refused(s);
    int result = refused ? fails(s, h) : PMPI_Sendrecv_replace(a, n, t, to, tag, from, tag2, h, into);
    has_received(refused ? NULL : s, &r, result, into);
    ends(s);
    return result;
}

/* ---- requests. A table has what is known of each; one that is pushed out by another is only not known any more. */
static struct request requests[REQUESTS];
static const struct request unknown_request = {.kind = NONE, .peer = -1};
static pthread_mutex_t request_lock = PTHREAD_MUTEX_INITIALIZER;   /* of the table, where several threads may use it at once: never held in a call of MPI */

static void lock_requests(void) {
    if (concurrent) {
        pthread_mutex_lock(&request_lock);
    }
}

static void unlock_requests(void) {
    if (concurrent) {
        pthread_mutex_unlock(&request_lock);
    }
}

/* The entry of a handle, or one that it may have. */
enum { PLACES = 8 };
static __attribute__((noinline)) struct request *entry_among(struct request *first, MPI_Request handle) {
    struct request *free_one = NULL;
    for (int i = 0; i < PLACES; i++) {
        if (first[i].there && first[i].handle == handle) {
            return &first[i];
        }
        free_one = free_one == NULL && !first[i].there ? &first[i] : free_one;
    }
    return free_one != NULL ? free_one : first;
}

static bool has_several[REQUESTS / PLACES];         /* of each group of places: others than the first were ever used */

FAST struct request *entry_of(MPI_Request handle, bool is_new) {
    unsigned group = (unsigned)((uint64_t)(uintptr_t)handle * 0x9e3779b97f4a7c15u >> 40) % (REQUESTS / PLACES);
    struct request *first = &requests[group * PLACES];
    if (__builtin_expect((first->there && first->handle == handle) || (!has_several[group] && !(is_new && first->there)), 1)) {
        return first;
    }
    has_several[group] |= is_new;
    return entry_among(first, handle);
}

/* A request is not under way any more, or nothing is known of it any more. */
FAST void is_over(const struct request *r) {
    if (r->there && r->kind == RECEIVE && r->needs > 0) {
        adds(&r->channel->under_way, -1u);
    }
}

FAST void is_begun(const struct request *r) {
    if (r->kind == RECEIVE && r->needs > 0) {
        adds(&r->channel->under_way, 1);
    }
}

/* Written word by word: a copy of what was just written in other pieces would wait for them. */
FAST void remember(MPI_Request handle, const struct part *p, struct communicator *of, bool begins_again) {
    lock_requests();
    struct request *r = entry_of(handle, true);
    is_over(r);
    r->handle = handle;
    r->kind = p->kind;
    r->peer = p->peer;
    r->needs = begins_again ? 0 : p->needs;
    r->of = of;
    r->channel = p->channel;
    r->begins_again = begins_again;
    r->there = true;
    is_begun(r);
    unlock_requests();
}

/* What is known of a request; nothing of one that is none. Where another thread may change it, a copy. */
FAST const struct request *recall(MPI_Request handle, struct request *copy) {
    if (handle == MPI_REQUEST_NULL) {
        return NULL;
    }
    lock_requests();
    const struct request *r = entry_of(handle, false);
    r = r->there && r->handle == handle ? r : &unknown_request;
    if (concurrent) {
        *copy = *r;
        r = copy;
    }
    unlock_requests();
    return r;
}

/* One that begins again stays, but is not under way any more. */
FAST void ends_request(struct request *r) {
    is_over(r);
    r->there = r->begins_again && r->there;
    r->needs = 0;
}

static void forget(MPI_Request handle) {
    lock_requests();
    struct request *r = entry_of(handle, false);
    if (r->handle == handle) {
        ends_request(r);
    }
    unlock_requests();
}

/* Nothing is known of the requests of a communicator any more, nor of what the own call waits for there. */
static void forget_all_of(const struct communicator *c) {
    for (int i = 0; i < REQUESTS; i++) {
        requests[i].there &= requests[i].of != c;
    }
    for (int i = 0; mine != NULL && i < mine->parts; i++) {
        mine->part[i].kind = mine->part[i].of != c ? mine->part[i].kind : NONE;
    }
    if (mine != NULL && atomic_load(&mine->of) == c) {
        atomic_store(&mine->kind, NONE);
    }
}

#define BEGINS_SEND(name, keeps) \
    int MPI_##name(const void *a, int n, MPI_Datatype t, int to, int tag, MPI_Comm h, MPI_Request *q) { \
        struct part p = sends_to(counts() ? known(h) : NULL, to, tag); \
        keeps; \
        struct slot *s = passes(HERE); \
        int result = PMPI_##name(a, n, t, to, tag, h, q); \
        is_sent(&p, result); \
        if (s != NULL && is_send(p.kind) && result == MPI_SUCCESS) { \
            remember(*q, &p, NULL, false); \
        } \
        passed(s); \
        return result; \
    }
BEGINS_SEND(Isend, may_keep(&p, n, t))
BEGINS_SEND(Issend, )
BEGINS_SEND(Irsend, may_keep(&p, n, t))
BEGINS_SEND(Ibsend, may_keep(&p, 0, t))

/* What a request for a message waits for. */
FAST struct part part_of(const struct receive *r) {
    struct channel *k = r->channel;
    int kind = k == NULL ? r->is_abroad ? ABROAD : NONE : k == &nowhere ? NONE : k->peer == ANY_RANK ? ANY : RECEIVE;
    return (struct part){.kind = kind, .peer = k != NULL ? k->peer : -1, .needs = 1, .of = r->of, .channel = k};
}

static inline struct slot *begins_receive(const struct receive *r, const void *at) {
    if (r->channel != NULL) {
        adds(&r->channel->begun, 1);
    }
    return passes(at);
}

int MPI_Irecv(void *a, int n, MPI_Datatype t, int from, int tag, MPI_Comm h, MPI_Request *q) {
    struct receive r = receive_at(h, from, tag);
    struct slot *s = begins_receive(&r, HERE);
    int result = PMPI_Irecv(a, n, t, from, tag, h, q);
    struct part p = part_of(&r);
    if (s != NULL && p.kind != NONE && result == MPI_SUCCESS) {
        remember(*q, &p, r.of, false);
    }
    passed(s);
    return result;
}

#define BEGINS_COLLECTIVE(KIND, name, root, needs_data, parameters, words) \
    int MPI_##name parameters { \
        struct communicator *c = counts() ? known(h) : NULL; \
        unsigned needs = comes(KIND, c, root); \
        struct slot *s = begins(NONE, NULL, 0, 0, HERE); \
        int result = PMPI_##name words; \
        if (s != NULL && needs > 0 && (needs_data) && result == MPI_SUCCESS) { \
            remember(*q, &(struct part){.kind = KIND, .peer = root, .needs = needs}, c, false); \
        } \
        ends(s); \
        return result; \
    }
BEGINS_COLLECTIVE(IBARRIER, Ibarrier, 0, true, (MPI_Comm h, MPI_Request *q), (h, q))
BEGINS_COLLECTIVE(IALLREDUCE, Iallreduce, 0, n > 0, (const void *a, void *b, int n, MPI_Datatype t, MPI_Op o, MPI_Comm h, MPI_Request *q), (a, b, n, t, o, h, q))
BEGINS_COLLECTIVE(IALLGATHER, Iallgather, 0, m > 0, (const void *a, int n, MPI_Datatype t, void *b, int m, MPI_Datatype u, MPI_Comm h, MPI_Request *q), (a, n, t, b, m, u, h, q))
BEGINS_COLLECTIVE(IALLTOALL, Ialltoall, 0, m > 0, (const void *a, int n, MPI_Datatype t, void *b, int m, MPI_Datatype u, MPI_Comm h, MPI_Request *q), (a, n, t, b, m, u, h, q))
BEGINS_COLLECTIVE(IBCAST, Ibcast, r, n > 0, (void *a, int n, MPI_Datatype t, int r, MPI_Comm h, MPI_Request *q), (a, n, t, r, h, q))

/* A request that was done, and that no other thread has cancelled meanwhile. With no status it is not known which message came. */
FAST void is_done(MPI_Request handle, const struct request *r, const MPI_Status *status) {
    int cancelled = 0;
    if (r == NULL || r->kind == NONE || r->handle != handle) {
        return;
    }
    if (concurrent && status != NULL && r->needs > 0) {
        PMPI_Test_cancelled(status, &cancelled);
    }
    if (!cancelled && r->needs > 0 && (r->kind == RECEIVE || r->kind == ANY)) {
        took(r->of, r->channel, status);
    }
    if (!cancelled && r->needs > 0 && r->kind == ABROAD) {
        adds(&taken_abroad, 1);
    }
    if (concurrent) {
        forget(handle);
    } else {
        ends_request((struct request *)(uintptr_t)r);
    }
}

/* A call that waits for requests: nothing for one that is none. Where no other thread may change what is known of them, the watcher looks at them, once the call has stood. */
FAST struct slot *waits(int n, const struct request *const *known_ones, bool all, const void *from) {
    struct slot *s = counts() ? own_slot() : NULL;
    if (s == NULL) {
        return begins(NONE, NULL, 0, 0, from);
    }
    if (guard || concurrent || n > PARTS) {
        struct part p = wanted_parts(n, known_ones, all, s->part, &s->parts);
        return begins_as(p, from);
    }
    for (int i = 0; i < n; i++) {
        s->later[i] = known_ones[i];
    }
    return begins(all ? LATER_ALL : LATER_ONE, NULL, n, 0, from);
}

int MPI_Wait(MPI_Request *q, MPI_Status *status) {
    MPI_Status own, *into = status == MPI_STATUS_IGNORE ? &own : status;
    MPI_Request handle = *q;
    struct request copy;
    const struct request *r = counts() ? recall(handle, &copy) : NULL;
    asks_now();
    struct slot *s = waits(1, &r, true, HERE);
    int result = is_refused(s) ? fails(s, MPI_COMM_WORLD) : PMPI_Wait(q, into);
    if (s != NULL && result == MPI_SUCCESS) {
        returned(s);
        is_done(handle, r, into);
    }
    ends(s);
    return result;
}

/* Handles and what is known of them, as they stand before a call that may change them. */
struct before {
    int n;
    MPI_Request *handles;
    const struct request **known_ones;
    struct request *copies;                         /* where another thread may change what is known */
    MPI_Status *statuses;                           /* where the program wants none, and yet it has to be asked which messages came */
    MPI_Request few[FEW];
    const struct request *few_known[FEW];
    struct request few_copies[FEW];
    MPI_Status few_statuses[FEW];
};

static inline void make_room(struct before *b, int n) {
    bool few = n <= FEW;
    b->n = counts() && n > 0 ? n : 0;
    b->handles = few ? b->few : malloc((size_t)n * sizeof *b->handles);
    b->known_ones = few ? b->few_known : malloc((size_t)n * sizeof *b->known_ones);
    b->copies = few ? b->few_copies : concurrent ? malloc((size_t)n * sizeof *b->copies) : NULL;
    b->statuses = NULL;
    b->n = b->handles != NULL && b->known_ones != NULL && (b->copies != NULL || !concurrent) ? b->n : 0;
}

FAST void keep(struct before *b, int i, MPI_Request handle) {
    b->handles[i] = handle;
    b->known_ones[i] = recall(handle, concurrent ? &b->copies[i] : NULL);
}

FAST void keep_before(struct before *b, int n, const MPI_Request *q) {
    make_room(b, n);
    for (int i = 0; i < b->n; i++) {
        keep(b, i, q[i]);
    }
}

static inline void free_before(const struct before *b) {
    if (b->handles != b->few) {
        free(b->handles);
        free(b->known_ones);
        free(b->copies);
        free(b->statuses);
    }
}

/* Where a call with several requests tells which messages came. */
static inline MPI_Status *statuses_of(struct before *b, MPI_Status *wanted) {
    bool asks = false;
    for (int i = 0; i < b->n && wanted == MPI_STATUSES_IGNORE; i++) {
        const struct request *r = b->known_ones[i];
        asks |= r != NULL && (r->kind == ANY || (r->kind == RECEIVE && r->channel->tag == EVERY_TAG));
    }
    if (asks) {
        b->statuses = b->n <= FEW ? b->few_statuses : malloc((size_t)b->n * sizeof *b->statuses);
    }
    return b->statuses != NULL ? b->statuses : wanted;
}

FAST void one_is_done(const struct before *b, int i, const MPI_Status *status) {
    if (i >= 0 && i < b->n) {
        is_done(b->handles[i], b->known_ones[i], status);
    }
}

FAST void all_are_done(const struct before *b, const MPI_Status *status) {
    for (int i = 0; i < b->n; i++) {
        one_is_done(b, i, status == MPI_STATUSES_IGNORE ? NULL : &status[i]);
    }
}

static void some_are_done(const struct before *b, const int *done, const int *which, const MPI_Status *status) {
    for (int i = 0; *done != MPI_UNDEFINED && i < *done; i++) {
        one_is_done(b, which[i], status == MPI_STATUSES_IGNORE ? NULL : &status[i]);
    }
}

#define OF_SEVERAL(name, beginning, parameters, words, behind) \
    int MPI_##name parameters { \
        MPI_Status own, *into = &own; \
        struct before b; \
        keep_before(&b, n, q); \
        struct slot *s = beginning; \
        int result = PMPI_##name words; \
        (void)into; \
        if (s != NULL && result == MPI_SUCCESS) { \
            returned(s); \
            behind; \
        } \
        free_before(&b); \
        ends(s); \
        return result; \
    }
#define INTO (status == MPI_STATUS_IGNORE ? into : (into = status))
#define ALL (status = statuses_of(&b, status))
OF_SEVERAL(Waitall, waits(b.n, b.known_ones, true, HERE), (int n, MPI_Request *q, MPI_Status *status), (n, q, ALL), all_are_done(&b, status))
OF_SEVERAL(Waitany, waits(b.n, b.known_ones, false, HERE), (int n, MPI_Request *q, int *which, MPI_Status *status), (n, q, which, INTO), one_is_done(&b, *which, into))
OF_SEVERAL(Waitsome, waits(b.n, b.known_ones, false, HERE), (int n, MPI_Request *q, int *done, int *which, MPI_Status *status), (n, q, done, which, ALL),
    some_are_done(&b, done, which, status))
OF_SEVERAL(Testall, begins(NONE, NULL, 0, 0, HERE), (int n, MPI_Request *q, int *flag, MPI_Status *status), (n, q, flag, ALL), if (*flag) { all_are_done(&b, status); })
OF_SEVERAL(Testany, begins(NONE, NULL, 0, 0, HERE), (int n, MPI_Request *q, int *which, int *flag, MPI_Status *status), (n, q, which, flag, INTO),
    if (*flag && *which != MPI_UNDEFINED) { one_is_done(&b, *which, into); })
OF_SEVERAL(Testsome, begins(NONE, NULL, 0, 0, HERE), (int n, MPI_Request *q, int *done, int *which, MPI_Status *status), (n, q, done, which, ALL),
    some_are_done(&b, done, which, status))

int MPI_Test(MPI_Request *q, int *flag, MPI_Status *status) {
    MPI_Status own, *into = status == MPI_STATUS_IGNORE ? &own : status;
    MPI_Request handle = *q;
    struct request copy;
    const struct request *r = counts() ? recall(handle, &copy) : NULL;
    struct slot *s = passes(HERE);
    int result = PMPI_Test(q, flag, into);
    if (s != NULL && result == MPI_SUCCESS && *flag) {
        is_done(handle, r, into);
    }
    passed(s);
    return result;
}

/* One that is given up is not counted as done, whether its message came or not. */
static void is_given_up(MPI_Request handle, bool is_freed) {
    lock_requests();
    struct request *r = entry_of(handle, false);
    if (r->there && r->handle == handle) {
        is_over(r);
        if (is_send(r->kind) && !is_freed && r->needs > 0) {
            adds(&r->channel->given_up, 1);
        }
        r->needs = 0;
        r->there = r->begins_again && !is_freed;
    }
    unlock_requests();
}

#define GIVES_UP(name, is_freed) \
    int MPI_##name(MPI_Request *q) { \
        is_given_up(*q, is_freed); \
        return PMPI_##name(q); \
    }
GIVES_UP(Request_free, true)
GIVES_UP(Cancel, false)

/* Requests that begin again and again: counted at each beginning. One of which nothing is known is not counted, and then nobody is told to wait for this rank. */
/* Of a send its channel is kept, and at the beginning it is counted there. */
static void is_made_once(MPI_Request handle, int kind, struct communicator *c, int other, int tag) {
    struct receive r = {c, channel_at(c, other, tag), is_abroad(c, other)};
    struct part p = part_of(&r);
    if (is_send(kind)) {
        p.kind = p.kind == RECEIVE ? kind : NONE;
    }
    if (c != NULL && (p.kind != NONE || other == MPI_PROC_NULL)) {
        remember(handle, &p, c, true);
    }
}

#define MADE_ONCE(KIND, name, parameters, words) \
    int MPI_##name parameters { \
        struct communicator *c = counts() ? known(h) : NULL; \
        int result = PMPI_##name words; \
        if (result == MPI_SUCCESS) { \
            is_made_once(*q, KIND, c, to, tag); \
        } \
        return result; \
    }
MADE_ONCE(is_short(n, t) ? KEPT : SEND, Send_init, (const void *a, int n, MPI_Datatype t, int to, int tag, MPI_Comm h, MPI_Request *q), (a, n, t, to, tag, h, q))
MADE_ONCE(SEND, Ssend_init, (const void *a, int n, MPI_Datatype t, int to, int tag, MPI_Comm h, MPI_Request *q), (a, n, t, to, tag, h, q))
MADE_ONCE(is_short(n, t) ? KEPT : SEND, Rsend_init, (const void *a, int n, MPI_Datatype t, int to, int tag, MPI_Comm h, MPI_Request *q), (a, n, t, to, tag, h, q))
MADE_ONCE(KEPT, Bsend_init, (const void *a, int n, MPI_Datatype t, int to, int tag, MPI_Comm h, MPI_Request *q), (a, n, t, to, tag, h, q))
MADE_ONCE(RECEIVE, Recv_init, (void *a, int n, MPI_Datatype t, int to, int tag, MPI_Comm h, MPI_Request *q), (a, n, t, to, tag, h, q))

static void begins_again(MPI_Request handle) {
    lock_requests();
    struct request *r = entry_of(handle, false);
    if (!r->there || r->handle != handle || !r->begins_again) {
        atomic_store(&sends_uncounted, true);
        atomic_store(&receives_uncounted, true);
        adds(&sent_abroad, 1);                      /* perhaps */
    } else if (is_send(r->kind)) {
        r->needs = counts_message(r->channel);
    } else if (r->kind != NONE) {
        if (r->channel != NULL) {
            adds(&r->channel->begun, 1);
        }
        r->needs = 1;
        is_begun(r);
    }
    unlock_requests();
}

int MPI_Start(MPI_Request *q) {
    if (counts()) {
        begins_again(*q);
    }
    struct slot *s = begins(NONE, NULL, 0, 0, HERE);
    int result = PMPI_Start(q);
    ends(s);
    return result;
}

int MPI_Startall(int n, MPI_Request *q) {
    for (int i = 0; counts() && i < n; i++) {
        begins_again(q[i]);
    }
    struct slot *s = begins(NONE, NULL, 0, 0, HERE);
    int result = PMPI_Startall(n, q);
    ends(s);
    return result;
}

/* Messages in parts are not counted: nobody is told to wait for this rank's. A send and a receive in one request: both are counted, and it is not known which message came. */
#if MPI_VERSION >= 4
#define UNCOUNTED(name, flag, parameters, words) \
    int MPI_##name parameters { \
        atomic_store(&flag, true); \
        return PMPI_##name words; \
    }
UNCOUNTED(Psend_init, sends_uncounted, (const void *a, int p, MPI_Count n, MPI_Datatype t, int to, int tag, MPI_Comm h, MPI_Info i, MPI_Request *q), (a, p, n, t, to, tag, h, i, q))
UNCOUNTED(Precv_init, receives_uncounted, (void *a, int p, MPI_Count n, MPI_Datatype t, int from, int tag, MPI_Comm h, MPI_Info i, MPI_Request *q), (a, p, n, t, from, tag, h, i, q))
#define BOTH_WAYS(name, parameters, words) \
    int MPI_##name parameters { \
        struct receive r = receive_at(h, from, tag2); \
        sends_to(r.of, to, tag); \
        struct slot *s = begins_receive(&r, HERE); \
        atomic_store(&sources_unknown, true); \
        int result = PMPI_##name words; \
        passed(s); \
        return result; \
    }
BOTH_WAYS(Isendrecv, (const void *a, int n, MPI_Datatype t, int to, int tag, void *b, int m, MPI_Datatype u, int from, int tag2, MPI_Comm h, MPI_Request *q), (a, n, t, to, tag, b, m, u, from, tag2, h, q))
BOTH_WAYS(Isendrecv_replace, (void *a, int n, MPI_Datatype t, int to, int tag, int from, int tag2, MPI_Comm h, MPI_Request *q), (a, n, t, to, tag, from, tag2, h, q))
#endif

/* ---- Fortran: its calls go to MPI's own Fortran functions, which may call MPI in C again; that is inside of the call. The module mpi_f08 has names of its own, of two
 * forms, for the same words; there the last one, the error, may be left out. */
#define FORTRAN(name, parameters, words, before, after) \
    FORTRAN_AS(name##_, parameters, words, before, after) \
    FORTRAN_AS(name##_f08_, parameters, words, before, after) \
    FORTRAN_AS(name##_f08ts_, parameters, words, before, after)
#define FORTRAN_AS(name, parameters, words, before, after) \
    void name parameters { \
        static void (*real) parameters; \
        if (real == NULL) { \
            real = (void (*) parameters)dlsym(RTLD_NEXT, #name); \
        } \
        before; \
        real words; \
        after; \
    }
#define F MPI_Fint *

static bool succeeded(F error) { return error == NULL || *error == MPI_SUCCESS; }

#define FORTRAN_COLLECTIVE(KIND, name, handle, root, needs_data, parameters, words) \
    FORTRAN(name, parameters, words, struct slot *s = collective(KIND, counts() ? PMPI_Comm_f2c(*handle) : MPI_COMM_NULL, root, needs_data, HERE), ends(s))

FORTRAN(mpi_init, (F e), (e), , begin(HERE))
FORTRAN(mpi_init_thread, (F w, F g, F e), (w, g, e), , begin(HERE))
FORTRAN(mpi_finalize, (F e), (e), struct slot *s = collective(FINALIZE, MPI_COMM_WORLD, 0, true, HERE), ends(s); end())
FORTRAN_COLLECTIVE(BARRIER, mpi_barrier, h, 0, true, (F h, F e), (h, e))
FORTRAN_COLLECTIVE(ALLREDUCE, mpi_allreduce, h, 0, *n > 0, (void *a, void *b, F n, F t, F o, F h, F e), (a, b, n, t, o, h, e))
FORTRAN_COLLECTIVE(ALLGATHER, mpi_allgather, h, 0, *m > 0, (void *a, F n, F t, void *b, F m, F u, F h, F e), (a, n, t, b, m, u, h, e))
FORTRAN_COLLECTIVE(ALLTOALL, mpi_alltoall, h, 0, *m > 0, (void *a, F n, F t, void *b, F m, F u, F h, F e), (a, n, t, b, m, u, h, e))
FORTRAN_COLLECTIVE(REDUCE, mpi_reduce, h, (int)*r, *n > 0, (void *a, void *b, F n, F t, F o, F r, F h, F e), (a, b, n, t, o, r, h, e))
FORTRAN_COLLECTIVE(GATHER, mpi_gather, h, (int)*r, *m > 0, (void *a, F n, F t, void *b, F m, F u, F r, F h, F e), (a, n, t, b, m, u, r, h, e))
FORTRAN_COLLECTIVE(SCATTER, mpi_scatter, h, (int)*r, *m > 0, (void *a, F n, F t, void *b, F m, F u, F r, F h, F e), (a, n, t, b, m, u, r, h, e))
FORTRAN_COLLECTIVE(BCAST, mpi_bcast, h, (int)*r, *n > 0, (void *a, F n, F t, F r, F h, F e), (a, n, t, r, h, e))
FORTRAN(mpi_comm_dup, (F h, F to, F e), (h, to, e), struct slot *s = collective(DUP, counts() ? PMPI_Comm_f2c(*h) : MPI_COMM_NULL, 0, true, HERE), if (s != NULL && succeeded(e)) { made(PMPI_Comm_f2c(*h), PMPI_Comm_f2c(*to), "dup"); } ends(s))
FORTRAN(mpi_comm_split, (F h, F c, F k, F to, F e), (h, c, k, to, e), struct slot *s = collective(SPLIT, counts() ? PMPI_Comm_f2c(*h) : MPI_COMM_NULL, 0, true, HERE), if (s != NULL && succeeded(e)) { made(PMPI_Comm_f2c(*h), PMPI_Comm_f2c(*to), "split"); } ends(s))
#define KEEPS_OF_FORTRAN may_keep(&p, (int)*n, PMPI_Type_f2c(*t))
#define FORTRAN_SEND(name, keeps) \
    FORTRAN(name, (void *a, F n, F t, F to, F g, F h, F e), (a, n, t, to, g, h, e), \
        struct part p = sends_to(counts() ? known(PMPI_Comm_f2c(*h)) : NULL, (int)*to, (int)*g); keeps; struct slot *s = begins_as(p, HERE), ends(s))
FORTRAN_SEND(mpi_send, KEEPS_OF_FORTRAN)
FORTRAN_SEND(mpi_ssend, )
FORTRAN_SEND(mpi_bsend, KEEPS_OF_FORTRAN)
FORTRAN_SEND(mpi_rsend, KEEPS_OF_FORTRAN)

/* A status of Fortran, or several: where the program leaves it out, one of the recorder's own stands in its place. So it is known which message came. */
enum { INTEGERS = sizeof(MPI_Status) / sizeof(MPI_Fint) };
struct status { MPI_Fint own[INTEGERS + 4]; MPI_Status read; };

static bool is_left_out(F status) {
#ifdef MPICH_VERSION
    if ((void *)status == (void *)MPI_F08_STATUS_IGNORE || (void *)status == (void *)MPI_F08_STATUSES_IGNORE) {
        return true;
    }
#endif
    return status == NULL || status == MPI_F_STATUS_IGNORE || status == MPI_F_STATUSES_IGNORE;
}

static F wanted(struct status *s, F status) { return is_left_out(status) ? s->own : status; }

/* The status in the form of C. */
static const MPI_Status *in_c(struct status *s, F status) { return PMPI_Status_f2c(status, &s->read) == MPI_SUCCESS ? &s->read : NULL; }

static void has_received_something(struct slot *s, const struct receive *r, F error, const MPI_Status *status) {
    if (succeeded(error)) {
        has_received(s, r, MPI_SUCCESS, status);
    }
}

#define FORTRAN_RECEIVE(name, tag, how, parameters, words, before, behind) FORTRAN_RECEIVE_AS(ends, name, tag, how, parameters, words, before, behind)
#define FORTRAN_RECEIVE_AS(end, name, tag, how, parameters, words, before, behind) \
    FORTRAN(name, parameters, words, struct receive r = receive_at(PMPI_Comm_f2c(*h), (int)*from, (int)*tag); before; struct slot *s = how, behind; end(s))
#define OWN_STATUS struct status own; st = wanted(&own, st)
FORTRAN_RECEIVE(mpi_recv, g, receives(&r, HERE), (void *a, F n, F t, F from, F g, F h, F st, F e), (a, n, t, from, g, h, st, e), OWN_STATUS, has_received_something(s, &r, e, in_c(&own, st)))
FORTRAN_RECEIVE(mpi_probe, g, waits_for_message(&r, HERE), (F from, F g, F h, F st, F e), (from, g, h, st, e), , )
FORTRAN_RECEIVE(mpi_mprobe, g, waits_for_message(&r, HERE), (F from, F g, F h, F m, F st, F e), (from, g, h, m, st, e), OWN_STATUS, if (succeeded(e)) { takes_out(s, &r, in_c(&own, st)); })
FORTRAN_RECEIVE(mpi_improbe, g, begins(NONE, NULL, 0, 0, HERE), (F from, F g, F h, F flag, F m, F st, F e), (from, g, h, flag, m, st, e), OWN_STATUS, if (succeeded(e) && *flag) { takes_out(s, &r, in_c(&own, st)); })
FORTRAN_RECEIVE(mpi_sendrecv, g2, receives(&r, HERE), (void *a, F n, F t, F to, F g, void *b, F m, F u, F from, F g2, F h, F st, F e), (a, n, t, to, g, b, m, u, from, g2, h, st, e),
    OWN_STATUS; sends_to(r.of, (int)*to, (int)*g), has_received_something(s, &r, e, in_c(&own, st)))
FORTRAN_RECEIVE(mpi_sendrecv_replace, g2, receives(&r, HERE), (void *a, F n, F t, F to, F g, F from, F g2, F h, F st, F e), (a, n, t, to, g, from, g2, h, st, e),
    OWN_STATUS; sends_to(r.of, (int)*to, (int)*g), has_received_something(s, &r, e, in_c(&own, st)))
FORTRAN_RECEIVE_AS(passed, mpi_irecv, g, begins_receive(&r, HERE), (void *a, F n, F t, F from, F g, F h, F q, F e), (a, n, t, from, g, h, q, e), ,
    struct part p = part_of(&r); if (s != NULL && p.kind != NONE && succeeded(e)) { remember(PMPI_Request_f2c(*q), &p, r.of, false); })

#define FORTRAN_BEGINS_SEND(name, keeps) \
    FORTRAN(name, (void *a, F n, F t, F to, F g, F h, F q, F e), (a, n, t, to, g, h, q, e), \
        struct part p = sends_to(counts() ? known(PMPI_Comm_f2c(*h)) : NULL, (int)*to, (int)*g); keeps; struct slot *s = begins(NONE, NULL, 0, 0, HERE), \
        if (s != NULL && is_send(p.kind) && succeeded(e)) { remember(PMPI_Request_f2c(*q), &p, NULL, false); } ends(s))
FORTRAN_BEGINS_SEND(mpi_isend, KEEPS_OF_FORTRAN)
FORTRAN_BEGINS_SEND(mpi_issend, )
FORTRAN_BEGINS_SEND(mpi_ibsend, KEEPS_OF_FORTRAN)
FORTRAN_BEGINS_SEND(mpi_irsend, KEEPS_OF_FORTRAN)

#define FORTRAN_MADE_ONCE(KIND, name) \
    FORTRAN(name, (void *a, F n, F t, F to, F g, F h, F q, F e), (a, n, t, to, g, h, q, e), struct communicator *c = counts() ? known(PMPI_Comm_f2c(*h)) : NULL, \
        if (succeeded(e)) { is_made_once(PMPI_Request_f2c(*q), KIND, c, (int)*to, (int)*g); })
FORTRAN_MADE_ONCE(is_short((int)*n, PMPI_Type_f2c(*t)) ? KEPT : SEND, mpi_send_init)
FORTRAN_MADE_ONCE(SEND, mpi_ssend_init)
FORTRAN_MADE_ONCE(KEPT, mpi_bsend_init)
FORTRAN_MADE_ONCE(is_short((int)*n, PMPI_Type_f2c(*t)) ? KEPT : SEND, mpi_rsend_init)
FORTRAN_MADE_ONCE(RECEIVE, mpi_recv_init)

static struct slot *begin_again(int n, F q, const void *at) {
    for (int i = 0; counts() && i < n; i++) {
        begins_again(PMPI_Request_f2c(q[i]));
    }
    return begins(NONE, NULL, 0, 0, at);
}

FORTRAN(mpi_start, (F q, F e), (q, e), struct slot *s = begin_again(1, q, HERE), ends(s))
FORTRAN(mpi_startall, (F n, F q, F e), (n, q, e), struct slot *s = begin_again((int)*n, q, HERE), ends(s))

static void keep_before_of_fortran(struct before *b, int n, F q) {
    make_room(b, n);
    for (int i = 0; i < b->n; i++) {
        keep(b, i, PMPI_Request_f2c(q[i]));
    }
}

/* Which messages came, where the program wants to know of all of them. Else a receive from anybody, or of any tag, counts as none: a later receive waits for less than it
 * needs, and never for more. */
static void all_have_come(const struct before *b, F statuses) {
    struct status one;
    for (int i = 0; i < b->n; i++) {
        one_is_done(b, i, is_left_out(statuses) ? NULL : in_c(&one, statuses + i * INTEGERS));
    }
}

static bool has_gone(const struct before *b, int i, F now) {
    return i >= 0 && i < b->n && b->handles[i] != MPI_REQUEST_NULL && PMPI_Request_f2c(now[i]) == MPI_REQUEST_NULL;
}

/* The numbers begin with 1, and by mpi_f08 of some MPICH with 0: which request was done is told by its handle, where that is gone. */
static void some_have_come(struct before *b, int done, F which, F statuses, F now) {
    struct status one;
    for (int i = 0; i < done; i++) {
        int at = (int)which[i] - 1;
        at += !has_gone(b, at, now) && has_gone(b, at + 1, now);
        one_is_done(b, at, is_left_out(statuses) ? NULL : in_c(&one, statuses + i * INTEGERS));
        if (at >= 0 && at < b->n) {
            b->handles[at] = MPI_REQUEST_NULL;
        }
    }
}

#define FORTRAN_OF_REQUESTS(name, beginning, count, own_status, parameters, words, behind) \
    FORTRAN(name, parameters, words, struct before b; own_status; keep_before_of_fortran(&b, count, q); struct slot *s = beginning, \
        if (s != NULL && succeeded(e)) { returned(s); behind; } free_before(&b); ends(s))
#define WAITS_FOR(all) waits(b.n, b.known_ones, all, HERE)
#define LOOKS begins(NONE, NULL, 0, 0, HERE)
FORTRAN_OF_REQUESTS(mpi_wait, WAITS_FOR(true), 1, OWN_STATUS, (F q, F st, F e), (q, st, e), all_have_come(&b, st))
FORTRAN_OF_REQUESTS(mpi_waitall, WAITS_FOR(true), (int)*n, , (F n, F q, F st, F e), (n, q, st, e), all_have_come(&b, st))
FORTRAN_OF_REQUESTS(mpi_waitany, WAITS_FOR(false), (int)*n, OWN_STATUS, (F n, F q, F which, F st, F e), (n, q, which, st, e), some_have_come(&b, 1, which, st, q))
FORTRAN_OF_REQUESTS(mpi_waitsome, WAITS_FOR(false), (int)*n, , (F n, F q, F done, F which, F st, F e), (n, q, done, which, st, e), some_have_come(&b, (int)*done, which, st, q))
FORTRAN_OF_REQUESTS(mpi_test, LOOKS, 1, OWN_STATUS, (F q, F flag, F st, F e), (q, flag, st, e), if (*flag) { all_have_come(&b, st); })
FORTRAN_OF_REQUESTS(mpi_testall, LOOKS, (int)*n, , (F n, F q, F flag, F st, F e), (n, q, flag, st, e), if (*flag) { all_have_come(&b, st); })
FORTRAN_OF_REQUESTS(mpi_testany, LOOKS, (int)*n, OWN_STATUS, (F n, F q, F which, F flag, F st, F e), (n, q, which, flag, st, e), if (*flag) { some_have_come(&b, 1, which, st, q); })
FORTRAN_OF_REQUESTS(mpi_testsome, LOOKS, (int)*n, , (F n, F q, F done, F which, F st, F e), (n, q, done, which, st, e), some_have_come(&b, (int)*done, which, st, q))

FORTRAN(mpi_request_free, (F q, F e), (q, e), is_given_up(PMPI_Request_f2c(*q), true), )
FORTRAN(mpi_cancel, (F q, F e), (q, e), is_given_up(PMPI_Request_f2c(*q), false), )
