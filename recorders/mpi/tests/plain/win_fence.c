/* Rank 2 makes no second fence of the window, and goes to a barrier. */
#include <mpi.h>

int main(int count, char **words) {
    int me, own = 0;
    MPI_Win shared;
    MPI_Init(&count, &words);
    MPI_Comm_rank(MPI_COMM_WORLD, &me);
    MPI_Win_create(&own, sizeof own, sizeof own, MPI_INFO_NULL, MPI_COMM_WORLD, &shared);
    MPI_Win_fence(MPI_MODE_NOPRECEDE, shared);
    if (me == 0) {
        MPI_Put(&me, 1, MPI_INT, 1, 0, 1, MPI_INT, shared);
    }
    if (me == 2) {
        MPI_Barrier(MPI_COMM_WORLD);
    }
    MPI_Win_fence(0, shared);
    MPI_Win_free(&shared);
    MPI_Finalize();
}
