/* Ranks 0 and 1 use the memory of each other, and each opens its own only when it is done. */
#include <mpi.h>

int main(int count, char **words) {
    int me, own = 0, other;
    MPI_Win shared;
    MPI_Group world, group;
    MPI_Init(&count, &words);
    MPI_Comm_rank(MPI_COMM_WORLD, &me);
    MPI_Win_create(&own, sizeof own, sizeof own, MPI_INFO_NULL, MPI_COMM_WORLD, &shared);
    if (me < 2) {
        other = 1 - me;
        MPI_Comm_group(MPI_COMM_WORLD, &world);
        MPI_Group_incl(world, 1, &other, &group);
        MPI_Win_start(group, 0, shared);
        MPI_Put(&me, 1, MPI_INT, other, 0, 1, MPI_INT, shared);
        MPI_Win_complete(shared);
        MPI_Win_post(group, 0, shared);
        MPI_Win_wait(shared);
    }
    MPI_Win_free(&shared);
    MPI_Finalize();
}
