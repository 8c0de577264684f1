/* Each rank sends to the next one and takes from the last one in one call, but with the two tags in each other's place. */
#include <mpi.h>

int main(int count, char **words) {
    int me, size, x = 0;
    MPI_Init(&count, &words);
    MPI_Comm_rank(MPI_COMM_WORLD, &me);
    MPI_Comm_size(MPI_COMM_WORLD, &size);
    MPI_Sendrecv(&me, 1, MPI_INT, (me + 1) % size, 1, &x, 1, MPI_INT, (me + size - 1) % size, 2, MPI_COMM_WORLD, MPI_STATUS_IGNORE);
    MPI_Finalize();
}
