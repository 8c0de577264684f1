/* Comes to its end: messages go to a rank that was spawned and come back, each side is late at times, and the two worlds become one communicator. */
#include <mpi.h>
#include <stdio.h>
#include <unistd.h>

static void answers(MPI_Comm parent) {
    int x = 0;
    MPI_Comm both;
    MPI_Request q;
    for (int turn = 0; turn < 4; turn++) {
        MPI_Recv(&x, 1, MPI_INT, 0, 7, parent, MPI_STATUS_IGNORE);
        usleep(turn == 1 ? 900000 : 0);
        MPI_Isend(&x, 1, MPI_INT, 0, 8, parent, &q);
        MPI_Wait(&q, MPI_STATUS_IGNORE);
    }
    MPI_Intercomm_merge(parent, 1, &both);
    MPI_Barrier(both);
    MPI_Recv(&x, 1, MPI_INT, 1, 9, both, MPI_STATUS_IGNORE);
    MPI_Comm_free(&both);
    MPI_Comm_disconnect(&parent);
}

static void asks(int me, MPI_Comm child) {
    int x = 0;
    MPI_Comm both;
    MPI_Request q;
    for (int turn = 0; me == 0 && turn < 4; turn++) {
        MPI_Irecv(&x, 1, MPI_INT, 0, 8, child, &q);
        usleep(turn == 2 ? 900000 : 0);
        MPI_Send(&turn, 1, MPI_INT, 0, 7, child);
        MPI_Wait(&q, MPI_STATUS_IGNORE);
    }
    MPI_Barrier(MPI_COMM_WORLD);
    MPI_Intercomm_merge(child, 0, &both);
    MPI_Barrier(both);
    if (me == 1) {
        usleep(900000);
        MPI_Send(&x, 1, MPI_INT, 3, 9, both);
    }
    MPI_Comm_free(&both);
    MPI_Comm_disconnect(&child);
    if (me == 0) {
        printf("%d\nend\n", x);
    }
}

int main(int count, char **words) {
    int me;
    MPI_Comm parent, child;
    MPI_Init(&count, &words);
    MPI_Comm_rank(MPI_COMM_WORLD, &me);
    MPI_Comm_get_parent(&parent);
    if (parent != MPI_COMM_NULL) {
        answers(parent);
    } else {
        MPI_Comm_spawn(words[0], MPI_ARGV_NULL, 1, MPI_INFO_NULL, 0, MPI_COMM_WORLD, &child, MPI_ERRCODES_IGNORE);
        asks(me, child);
    }
    MPI_Finalize();
}
