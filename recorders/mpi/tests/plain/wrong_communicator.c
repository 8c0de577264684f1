/* The tag is right, but rank 1 sends in another communicator than the one in which rank 0 receives; rank 2 waits for a message behind that. */
#include <mpi.h>

int main(int count, char **words) {
    int me, x = 0;
    MPI_Comm other;
    MPI_Init(&count, &words);
    MPI_Comm_rank(MPI_COMM_WORLD, &me);
    MPI_Comm_dup(MPI_COMM_WORLD, &other);
    if (me == 0) {
        MPI_Recv(&x, 1, MPI_INT, 1, 7, other, MPI_STATUS_IGNORE);
        MPI_Send(&x, 1, MPI_INT, 2, 7, MPI_COMM_WORLD);
    } else if (me == 1) {
        MPI_Send(&x, 1, MPI_INT, 0, 7, MPI_COMM_WORLD);
        MPI_Barrier(other);
    } else {
        MPI_Recv(&x, 1, MPI_INT, 0, 7, MPI_COMM_WORLD, MPI_STATUS_IGNORE);
    }
    MPI_Barrier(other);
    MPI_Finalize();
}
