/* Rank 0 calls MPI_Barrier where the others call MPI_Allreduce. */
#include <mpi.h>

static double a[4096], b[4096];

int main(int count, char **words) {
    int me;
    MPI_Init(&count, &words);
    MPI_Comm_rank(MPI_COMM_WORLD, &me);
    if (me == 0) {
        MPI_Barrier(MPI_COMM_WORLD);
        MPI_Allreduce(a, b, 4096, MPI_DOUBLE, MPI_SUM, MPI_COMM_WORLD);
    } else {
        MPI_Allreduce(a, b, 4096, MPI_DOUBLE, MPI_SUM, MPI_COMM_WORLD);
        MPI_Barrier(MPI_COMM_WORLD);
    }
    MPI_Finalize();
}
