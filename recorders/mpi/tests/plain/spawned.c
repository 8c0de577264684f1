/* Three ranks spawn one more; it waits for a message of rank 0, which waits for one of it. */
#include <mpi.h>

int main(int count, char **words) {
    int me, x = 0;
    MPI_Comm parent, child;
    MPI_Init(&count, &words);
    MPI_Comm_rank(MPI_COMM_WORLD, &me);
    MPI_Comm_get_parent(&parent);
    if (parent != MPI_COMM_NULL) {
        MPI_Recv(&x, 1, MPI_INT, 0, 7, parent, MPI_STATUS_IGNORE);
        MPI_Send(&x, 1, MPI_INT, 0, 7, parent);
        MPI_Finalize();
        return 0;
    }
    MPI_Comm_spawn(words[0], MPI_ARGV_NULL, 1, MPI_INFO_NULL, 0, MPI_COMM_WORLD, &child, MPI_ERRCODES_IGNORE);
    if (me == 0) {
        MPI_Recv(&x, 1, MPI_INT, 0, 7, child, MPI_STATUS_IGNORE);
        MPI_Send(&x, 1, MPI_INT, 0, 7, child);
    }
    MPI_Barrier(MPI_COMM_WORLD);
    MPI_Finalize();
}
