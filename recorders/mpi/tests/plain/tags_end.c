/* Comes to its end: messages of many tags in several communicators, taken in another order than they were sent, in each way, also of any tag, from anybody and to oneself,
 * taken out, given up and without room. Each rank is late at times, so the others wait. */
#include <mpi.h>
#include <stdio.h>
#include <unistd.h>

enum { LARGE = 1 << 18, TURNS = 6 };
static int me, size, next, last, sum;
static double from_last[LARGE], to_next[LARGE];

static void late(int turn, int who) { usleep(turn % size == (me + who) % size ? 250000 : 0); }

static void crosswise(int turn, MPI_Comm c) {
    int x = 0, tag = 1000 * turn;
    MPI_Request q[3];
    MPI_Status status;
    for (int k = 0; k < 4; k++) {
        MPI_Send(&me, 1, MPI_INT, next, tag + k, c);
    }
    late(turn, 0);
    MPI_Irecv(&x, 1, MPI_INT, last, tag, c, &q[0]);
    MPI_Recv(&x, 1, MPI_INT, last, tag + 3, c, MPI_STATUS_IGNORE);
    MPI_Probe(last, MPI_ANY_TAG, c, &status);
    MPI_Recv(&x, 1, MPI_INT, MPI_ANY_SOURCE, tag + 2, c, &status);
    sum += x;
    MPI_Wait(&q[0], MPI_STATUS_IGNORE);
    MPI_Recv(&x, 1, MPI_INT, last, MPI_ANY_TAG, c, &status);
    sum += status.MPI_TAG - tag;
}

static void large(int turn, MPI_Comm c) {
    MPI_Request q[2];
    MPI_Irecv(from_last, LARGE, MPI_DOUBLE, last, 2000 + turn, c, &q[0]);
    late(turn, 1);
    MPI_Isend(to_next, LARGE, MPI_DOUBLE, next, 2000 + turn, c, &q[1]);
    MPI_Waitall(2, q, MPI_STATUSES_IGNORE);
    MPI_Sendrecv(to_next, LARGE, MPI_DOUBLE, next, 8, from_last, LARGE, MPI_DOUBLE, last, 8, c, MPI_STATUS_IGNORE);
}

static void taken_out(int turn, MPI_Comm c) {
    int x[2] = {me, me}, done;
    MPI_Request q[2];
    MPI_Message message;
    late(turn, 2);
    MPI_Isend(x, 2, MPI_INT, next, 9, c, &q[0]);
    MPI_Mprobe(turn % 2 ? last : MPI_ANY_SOURCE, turn % 3 ? 9 : MPI_ANY_TAG, c, &message, MPI_STATUS_IGNORE);
    MPI_Imrecv(x, 2, MPI_INT, &message, &q[1]);
    MPI_Waitall(2, q, MPI_STATUSES_IGNORE);
    MPI_Ssend(x, turn % 2 ? 0 : 1, MPI_INT, MPI_PROC_NULL, 9, c);
    MPI_Send(x, 1, MPI_INT, next, 10, c);
    for (done = 0; !done;) {
        MPI_Improbe(last, 10, c, &done, &message, MPI_STATUS_IGNORE);
    }
    MPI_Mrecv(x, 1, MPI_INT, &message, MPI_STATUS_IGNORE);
    sum += x[0];
}

static void given_up(int turn, MPI_Comm c) {
    int x[2] = {me, me};
    MPI_Request q[2];
    MPI_Irecv(x, 2, MPI_INT, last, 11, c, &q[0]);
    MPI_Cancel(&q[0]);
    MPI_Wait(&q[0], MPI_STATUS_IGNORE);
    MPI_Barrier(c);
    late(turn, 0);
    MPI_Send(x, 2, MPI_INT, next, 11, c);
    MPI_Send(x, 1, MPI_INT, next, 11, c);
    MPI_Recv(x, 1, MPI_INT, last, 11, c, MPI_STATUS_IGNORE);        /* too little room */
    MPI_Recv(x, 1, MPI_INT, last, 11, c, MPI_STATUS_IGNORE);
    sum += x[0];
    MPI_Isend(x, 1, MPI_INT, me, 12, c, &q[0]);
    MPI_Recv(x, 1, MPI_INT, me, 12, c, MPI_STATUS_IGNORE);
    MPI_Wait(&q[0], MPI_STATUS_IGNORE);
    MPI_Irecv(x, 1, MPI_INT, last, 13, c, &q[0]);
    MPI_Irecv(x + 1, 1, MPI_INT, last, MPI_ANY_TAG, c, &q[1]);
    late(turn, 1);
    MPI_Ssend(&me, 1, MPI_INT, next == 0 ? MPI_PROC_NULL : next, 14, c);
    MPI_Send(&me, 1, MPI_INT, next, 13, c);
    if (me == 0) {
        MPI_Cancel(&q[1]);
    }
    MPI_Waitall(2, q, MPI_STATUSES_IGNORE);
}

int main(int count, char **words) {
    MPI_Comm c;
    MPI_Init(&count, &words);
    MPI_Comm_rank(MPI_COMM_WORLD, &me);
    MPI_Comm_size(MPI_COMM_WORLD, &size);
    next = (me + 1) % size;
    last = (me + size - 1) % size;
    for (int turn = 0; turn < TURNS; turn++) {
        MPI_Comm_dup(MPI_COMM_WORLD, &c);
        MPI_Comm_set_errhandler(c, MPI_ERRORS_RETURN);
        crosswise(turn, turn % 2 ? c : MPI_COMM_WORLD);
        large(turn, c);
        taken_out(turn, c);
        given_up(turn, c);
        MPI_Comm_free(&c);
    }
    if (me == 0) {
        printf("%d\nend\n", sum);
    }
    MPI_Finalize();
}
