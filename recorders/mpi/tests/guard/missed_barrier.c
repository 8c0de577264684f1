/* Rank 2 skips a barrier and comes to the end, where it is refused. It comes to the barrier then. */
#include <mpi.h>
#include <stdio.h>
#include <unistd.h>

int main(int count, char **words) {
    int me;
    MPI_Init(&count, &words);
    MPI_Comm_rank(MPI_COMM_WORLD, &me);
    MPI_Comm_set_errhandler(MPI_COMM_WORLD, MPI_ERRORS_RETURN);
    if (me == 2) {
        sleep(2);
    } else {
        MPI_Barrier(MPI_COMM_WORLD);
    }
    if (MPI_Finalize() != MPI_SUCCESS) {
        puts("refused");
        MPI_Barrier(MPI_COMM_WORLD);
        MPI_Finalize();
    }
    if (me == 2) {
        puts("end");
    }
}
