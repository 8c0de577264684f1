/* Rank 2 has nothing to do in the second step, and skips its barrier. */
#include <mpi.h>

int main(int count, char **words) {
    int me;
    MPI_Init(&count, &words);
    MPI_Comm_rank(MPI_COMM_WORLD, &me);
    for (int step = 0; step < 3; step++) {
        if (me == 2 && step == 1) {
            continue;
        }
        MPI_Barrier(MPI_COMM_WORLD);
    }
    MPI_Finalize();
}
