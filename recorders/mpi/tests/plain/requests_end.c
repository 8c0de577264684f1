/* Comes to its end: messages by requests of every sort, some of them late, some given up, some of an inter-communicator, and collectives that begin and are waited for. */
#include <mpi.h>
#include <stdio.h>
#include <unistd.h>

enum { LARGE = 1 << 20 };
static int me, size;
static double from_left[LARGE], to_right[LARGE];

static void any_of_them(int turn) {
    int x[2], left = (me + size - 1) % size, right = (me + 1) % size, which, done, some[2];
    MPI_Request q[2], sends[2];
    MPI_Status status[2];
    MPI_Irecv(&x[0], 1, MPI_INT, left, 1, MPI_COMM_WORLD, &q[0]);
    MPI_Irecv(&x[1], 1, MPI_INT, turn % 2 ? MPI_ANY_SOURCE : right, 2, MPI_COMM_WORLD, &q[1]);
    usleep(turn == 0 ? 300000 * (unsigned)me : 0);
    MPI_Isend(&me, 1, MPI_INT, right, 1, MPI_COMM_WORLD, &sends[0]);
    usleep(turn == 1 ? 400000 * (unsigned)(size - me) : 0);
    MPI_Isend(&me, 1, MPI_INT, left, 2, MPI_COMM_WORLD, &sends[1]);
    if (turn == 0) {
        MPI_Waitany(2, q, &which, MPI_STATUS_IGNORE);
        MPI_Waitany(2, q, &which, status);
    } else if (turn == 1) {
        for (int n = 0; n < 2; n += done) {
            MPI_Waitsome(2, q, &done, some, status);
        }
    } else {
        for (done = 0; !done;) {
            MPI_Testall(2, q, &done, status);
        }
    }
    MPI_Waitall(2, sends, MPI_STATUSES_IGNORE);
}

int main(int count, char **words) {
    int x = 0, y = 0, all[8], flag;
    MPI_Comm half, both, merged;
    MPI_Request q[4];
    MPI_Init(&count, &words);
    MPI_Comm_rank(MPI_COMM_WORLD, &me);
    MPI_Comm_size(MPI_COMM_WORLD, &size);
    for (int turn = 0; turn < 3; turn++) {
        any_of_them(turn);
    }
    /* large ones, which wait for their receivers */
    MPI_Isend(to_right, LARGE, MPI_DOUBLE, (me + 1) % size, 3, MPI_COMM_WORLD, &q[0]);
    usleep(me == 1 ? 500000 : 0);
    MPI_Irecv(from_left, LARGE, MPI_DOUBLE, (me + size - 1) % size, 3, MPI_COMM_WORLD, &q[1]);
    MPI_Waitall(2, q, MPI_STATUSES_IGNORE);
    /* one that is given up */
    MPI_Irecv(&x, 1, MPI_INT, (me + 1) % size, 4, MPI_COMM_WORLD, &q[0]);
    MPI_Cancel(&q[0]);
    MPI_Wait(&q[0], MPI_STATUS_IGNORE);
    /* ones that begin again */
    MPI_Send_init(&me, 1, MPI_INT, (me + 1) % size, 5, MPI_COMM_WORLD, &q[0]);
    MPI_Recv_init(&x, 1, MPI_INT, (me + size - 1) % size, 5, MPI_COMM_WORLD, &q[1]);
    for (int turn = 0; turn < 3; turn++) {
        usleep(me == 2 ? 250000 : 0);
        MPI_Startall(2, q);
        MPI_Waitall(2, q, MPI_STATUSES_IGNORE);
    }
    MPI_Request_free(&q[0]);
    MPI_Request_free(&q[1]);
    /* collectives that begin and are waited for later */
    MPI_Ibarrier(MPI_COMM_WORLD, &q[0]);
    MPI_Iallreduce(&me, &y, 1, MPI_INT, MPI_SUM, MPI_COMM_WORLD, &q[1]);
    usleep(me == 0 ? 400000 : 0);
    MPI_Ibcast(&x, 1, MPI_INT, 0, MPI_COMM_WORLD, &q[2]);
    MPI_Iallgather(&me, 1, MPI_INT, all, 1, MPI_INT, MPI_COMM_WORLD, &q[3]);
    MPI_Waitall(4, q, MPI_STATUSES_IGNORE);
    for (flag = 0; me == 0 && !flag;) {
        MPI_Ibarrier(MPI_COMM_SELF, &q[0]);
        MPI_Wait(&q[0], MPI_STATUS_IGNORE);
        flag = 1;
    }
    MPI_Scan(&me, &y, 1, MPI_INT, MPI_SUM, MPI_COMM_WORLD);
    /* two sides */
    MPI_Comm_split(MPI_COMM_WORLD, me == 0, me, &half);
    MPI_Intercomm_create(half, 0, MPI_COMM_WORLD, me == 0 ? 1 : 0, 6, &both);
    usleep(me == 0 ? 300000 : 0);
    MPI_Barrier(both);
    MPI_Allgather(&me, 1, MPI_INT, all, 1, MPI_INT, both);
    if (me == 0) {
        MPI_Recv(&x, 1, MPI_INT, 1, 7, both, MPI_STATUS_IGNORE);
        MPI_Recv(&x, 1, MPI_INT, MPI_ANY_SOURCE, 7, both, MPI_STATUS_IGNORE);
    } else {
        usleep(300000);
        MPI_Send(&me, 1, MPI_INT, 0, 7, both);
    }
    MPI_Intercomm_merge(both, me == 0, &merged);
    MPI_Barrier(merged);
    MPI_Comm_free(&merged);
    MPI_Comm_free(&both);
    MPI_Comm_free(&half);
    if (me == 0) {
        puts("end");
    }
    MPI_Finalize();
}
