/* What calls cost between ranks that wait for nothing but each other's messages: the least of many rounds, in tenths of a nanosecond. */
#include <mpi.h>
#include <stdio.h>
#include <time.h>

enum { ROUNDS = 60, TIMES = 1000 };

static long now(void) {
    struct timespec t;
    clock_gettime(CLOCK_MONOTONIC, &t);
    return t.tv_sec * 1000000000L + t.tv_nsec;
}

#define LEAST(name, operation) \
    long name##_least = 1000000000; \
    for (int round = 0; round < ROUNDS; round++) { \
        long begun = now(); \
        for (int i = 0; i < TIMES; i++) { \
            operation; \
        } \
        long took = (now() - begun) * 10 / TIMES; \
        name##_least = took < name##_least ? took : name##_least; \
    } \
    if (me == 0) { \
        printf(#name " %ld\n", name##_least); \
    }

int main(int count, char **words) {
    int me, size, x = 0, y = 0;
    MPI_Request q[2];
    MPI_Init(&count, &words);
    MPI_Comm_rank(MPI_COMM_WORLD, &me);
    MPI_Comm_size(MPI_COMM_WORLD, &size);
    int next = (me + 1) % size, last = (me + size - 1) % size;
    LEAST(barrier, MPI_Barrier(MPI_COMM_WORLD));
    LEAST(allreduce, MPI_Allreduce(&x, &y, 1, MPI_INT, MPI_SUM, MPI_COMM_WORLD));
    LEAST(sendrecv, MPI_Sendrecv(&x, 1, MPI_INT, next, 7, &y, 1, MPI_INT, last, 7, MPI_COMM_WORLD, MPI_STATUS_IGNORE));
    LEAST(requests, MPI_Irecv(&y, 1, MPI_INT, last, 3, MPI_COMM_WORLD, &q[0]); MPI_Isend(&x, 1, MPI_INT, next, 3, MPI_COMM_WORLD, &q[1]); MPI_Waitall(2, q, MPI_STATUSES_IGNORE));
    MPI_Finalize();
}
