/* Each rank waits for a message of both neighbours before it sends its own; rank 2 has sent to rank 0, which is not enough. */
#include <mpi.h>

int main(int count, char **words) {
    int me, size, x[2] = {0}, y = 0;
    MPI_Request q[3];
    MPI_Init(&count, &words);
    MPI_Comm_rank(MPI_COMM_WORLD, &me);
    MPI_Comm_size(MPI_COMM_WORLD, &size);
    MPI_Irecv(&x[0], 1, MPI_INT, (me + 1) % size, 0, MPI_COMM_WORLD, &q[0]);
    MPI_Irecv(&x[1], 1, MPI_INT, (me + size - 1) % size, 0, MPI_COMM_WORLD, &q[1]);
    MPI_Isend(&y, 1, MPI_INT, me == 2 ? 0 : MPI_PROC_NULL, 0, MPI_COMM_WORLD, &q[2]);
    MPI_Waitall(3, q, MPI_STATUSES_IGNORE);
    MPI_Finalize();
}
