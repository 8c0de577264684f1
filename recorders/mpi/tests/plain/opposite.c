/* Two communicators of all ranks, met in opposite order. */
#include <mpi.h>

int main(int count, char **words) {
    int me, mine = 1, sum;
    MPI_Comm other;
    MPI_Init(&count, &words);
    MPI_Comm_rank(MPI_COMM_WORLD, &me);
    MPI_Comm_dup(MPI_COMM_WORLD, &other);
    if (me == 0) {
        MPI_Barrier(MPI_COMM_WORLD);
        MPI_Allreduce(&mine, &sum, 1, MPI_INT, MPI_SUM, other);
    } else {
        MPI_Allreduce(&mine, &sum, 1, MPI_INT, MPI_SUM, other);
        MPI_Barrier(MPI_COMM_WORLD);
    }
    MPI_Finalize();
}
