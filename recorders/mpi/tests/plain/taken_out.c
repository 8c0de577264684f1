/* Rank 0 takes a message out of those that came, and waits for a second one with its tag, which never comes. A receive that was given up, and one whose message had not
 * enough room, count as they have to. */
#include <mpi.h>

int main(int count, char **words) {
    int me, x[2] = {0, 0};
    MPI_Request q;
    MPI_Message message;
    MPI_Init(&count, &words);
    MPI_Comm_rank(MPI_COMM_WORLD, &me);
    MPI_Comm_set_errhandler(MPI_COMM_WORLD, MPI_ERRORS_RETURN);
    if (me == 0) {
        MPI_Irecv(x, 2, MPI_INT, 1, 4, MPI_COMM_WORLD, &q);
        MPI_Cancel(&q);
        MPI_Wait(&q, MPI_STATUS_IGNORE);
        MPI_Recv(x, 1, MPI_INT, 1, 4, MPI_COMM_WORLD, MPI_STATUS_IGNORE);
        MPI_Mprobe(1, 4, MPI_COMM_WORLD, &message, MPI_STATUS_IGNORE);
        MPI_Mrecv(x, 2, MPI_INT, &message, MPI_STATUS_IGNORE);
    } else if (me == 1) {
        MPI_Barrier(MPI_COMM_SELF);
        MPI_Send(x, 2, MPI_INT, 0, 4, MPI_COMM_WORLD);
        MPI_Send(x, 2, MPI_INT, 0, 4, MPI_COMM_WORLD);
    }
    if (me == 0) {
        MPI_Mprobe(1, 4, MPI_COMM_WORLD, &message, MPI_STATUS_IGNORE);
    }
    MPI_Barrier(MPI_COMM_WORLD);
    MPI_Finalize();
}
