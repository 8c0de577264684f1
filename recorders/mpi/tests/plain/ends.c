/* Comes to its end: the ranks meet by even and odd, and then all. */
#include <mpi.h>

int main(int count, char **words) {
    int me;
    MPI_Comm half;
    MPI_Init(&count, &words);
    MPI_Comm_rank(MPI_COMM_WORLD, &me);
    MPI_Comm_split(MPI_COMM_WORLD, me % 2, me, &half);
    MPI_Barrier(half);
    MPI_Barrier(MPI_COMM_WORLD);
    MPI_Finalize();
}
