/* One message comes, and it is that of the receive that began first; rank 0 waits in the second one. */
#include <mpi.h>

int main(int count, char **words) {
    int me, x[2] = {0, 0};
    MPI_Request q;
    MPI_Init(&count, &words);
    MPI_Comm_rank(MPI_COMM_WORLD, &me);
    if (me == 0) {
        MPI_Irecv(&x[0], 1, MPI_INT, 1, 5, MPI_COMM_WORLD, &q);
        MPI_Recv(&x[1], 1, MPI_INT, 1, 5, MPI_COMM_WORLD, MPI_STATUS_IGNORE);
        MPI_Wait(&q, MPI_STATUS_IGNORE);
    } else if (me == 1) {
        MPI_Send(&x[0], 1, MPI_INT, 0, 5, MPI_COMM_WORLD);
    }
    MPI_Barrier(MPI_COMM_WORLD);
    MPI_Finalize();
}
