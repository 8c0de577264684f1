/* Rank 1 has work of its own for an hour before it comes to the barrier. */
#include <mpi.h>
#include <unistd.h>

int main(int count, char **words) {
    int me;
    MPI_Init(&count, &words);
    MPI_Comm_rank(MPI_COMM_WORLD, &me);
    if (me == 1) {
        sleep(3600);
    }
    MPI_Barrier(MPI_COMM_WORLD);
    MPI_Finalize();
}
