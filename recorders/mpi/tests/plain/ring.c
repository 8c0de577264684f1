/* Each rank first takes from the next one, and nobody has sent. */
#include <mpi.h>

int main(int count, char **words) {
    int me, size, x = 0;
    MPI_Init(&count, &words);
    MPI_Comm_rank(MPI_COMM_WORLD, &me);
    MPI_Comm_size(MPI_COMM_WORLD, &size);
    MPI_Recv(&x, 1, MPI_INT, (me + 1) % size, 0, MPI_COMM_WORLD, MPI_STATUS_IGNORE);
    MPI_Send(&x, 1, MPI_INT, (me + size - 1) % size, 0, MPI_COMM_WORLD);
    MPI_Finalize();
}
