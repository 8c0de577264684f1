/* Rank 0 on one side, the others on the other side of an inter-communicator: rank 0 takes a message there, the others meet at its barrier. */
#include <mpi.h>

int main(int count, char **words) {
    int me, x = 0;
    MPI_Comm half, both;
    MPI_Init(&count, &words);
    MPI_Comm_rank(MPI_COMM_WORLD, &me);
    MPI_Comm_split(MPI_COMM_WORLD, me == 0, me, &half);
    MPI_Intercomm_create(half, 0, MPI_COMM_WORLD, me == 0 ? 1 : 0, 5, &both);
    MPI_Barrier(both);
    if (me == 0) {
        MPI_Recv(&x, 1, MPI_INT, 1, 0, both, MPI_STATUS_IGNORE);
    }
    MPI_Barrier(both);
    MPI_Finalize();
}
