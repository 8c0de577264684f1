/* Rank 2 comes to the end; the others still wait for a message of it, and for a barrier with it. */
#include <mpi.h>

int main(int count, char **words) {
    int me, x = 0;
    MPI_Init(&count, &words);
    MPI_Comm_rank(MPI_COMM_WORLD, &me);
    if (me == 0) {
        MPI_Recv(&x, 1, MPI_INT, 2, 0, MPI_COMM_WORLD, MPI_STATUS_IGNORE);
    }
    if (me != 2) {
        MPI_Barrier(MPI_COMM_WORLD);
    }
    MPI_Finalize();
}
