/* Rank 0 waits for the first of two messages that the others send only behind its own. */
#include <mpi.h>

int main(int count, char **words) {
    int me, which, x[3] = {0};
    MPI_Request q[2];
    MPI_Init(&count, &words);
    MPI_Comm_rank(MPI_COMM_WORLD, &me);
    if (me == 0) {
        MPI_Irecv(&x[1], 1, MPI_INT, 1, 0, MPI_COMM_WORLD, &q[0]);
        MPI_Irecv(&x[2], 1, MPI_INT, 2, 0, MPI_COMM_WORLD, &q[1]);
        MPI_Waitany(2, q, &which, MPI_STATUS_IGNORE);
    } else {
        MPI_Recv(x, 1, MPI_INT, 0, 0, MPI_COMM_WORLD, MPI_STATUS_IGNORE);
        MPI_Send(x, 1, MPI_INT, 0, 0, MPI_COMM_WORLD);
    }
    MPI_Finalize();
}
