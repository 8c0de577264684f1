/* An inter-communicator that is duplicated four times, each time from the last: rank 0 takes a message there, the others meet at its barrier. */
#include <mpi.h>

int main(int count, char **words) {
    int me, x = 0;
    MPI_Comm half, between, one;
    MPI_Init(&count, &words);
    MPI_Comm_rank(MPI_COMM_WORLD, &me);
    MPI_Comm_split(MPI_COMM_WORLD, me == 0, me, &half);
    MPI_Intercomm_create(half, 0, MPI_COMM_WORLD, me == 0 ? 1 : 0, 5, &between);
    for (int i = 0; i < 4; i++) {
        MPI_Comm_dup(between, &one);
        between = one;
    }
    if (me == 0) {
        MPI_Recv(&x, 1, MPI_INT, 1, 0, between, MPI_STATUS_IGNORE);
    }
    MPI_Barrier(between);
    MPI_Finalize();
}
