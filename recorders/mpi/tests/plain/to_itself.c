/* Rank 0 waits for a message from itself with a tag with which it sent none; the others wait for it. */
#include <mpi.h>

int main(int count, char **words) {
    int me, x = 0, y = 0;
    MPI_Request q;
    MPI_Init(&count, &words);
    MPI_Comm_rank(MPI_COMM_WORLD, &me);
    MPI_Isend(&x, 1, MPI_INT, me, 1, MPI_COMM_WORLD, &q);
    MPI_Recv(&y, 1, MPI_INT, me, me == 0 ? 2 : 1, MPI_COMM_WORLD, MPI_STATUS_IGNORE);
    MPI_Wait(&q, MPI_STATUS_IGNORE);
    MPI_Barrier(MPI_COMM_WORLD);
    MPI_Finalize();
}
