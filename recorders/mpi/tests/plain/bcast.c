/* Rank 0 begins with a barrier, the others with a broadcast from rank 0. */
#include <mpi.h>

int main(int count, char **words) {
    int me, x = 0;
    MPI_Init(&count, &words);
    MPI_Comm_rank(MPI_COMM_WORLD, &me);
    if (me == 0) {
        MPI_Barrier(MPI_COMM_WORLD);
    }
    MPI_Bcast(&x, 1, MPI_INT, 0, MPI_COMM_WORLD);
    if (me != 0) {
        MPI_Barrier(MPI_COMM_WORLD);
    }
    MPI_Finalize();
}
