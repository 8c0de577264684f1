/* Rank 0 opens its memory to both others and waits until they are done. Rank 1 wants a message of rank 0 before it completes; rank 2 completes. */
#include <mpi.h>

int main(int count, char **words) {
    int me, own = 0, both[] = {1, 2}, first = 0, message;
    MPI_Win shared;
    MPI_Group world, group;
    MPI_Init(&count, &words);
    MPI_Comm_rank(MPI_COMM_WORLD, &me);
    MPI_Win_create(&own, sizeof own, sizeof own, MPI_INFO_NULL, MPI_COMM_WORLD, &shared);
    MPI_Comm_group(MPI_COMM_WORLD, &world);
    MPI_Group_incl(world, me == 0 ? 2 : 1, me == 0 ? both : &first, &group);
    if (me == 0) {
        MPI_Win_post(group, 0, shared);
        MPI_Win_wait(shared);
        MPI_Send(&own, 1, MPI_INT, 1, 0, MPI_COMM_WORLD);
    } else {
        MPI_Win_start(group, 0, shared);
        if (me == 1) {
            MPI_Recv(&message, 1, MPI_INT, 0, 0, MPI_COMM_WORLD, MPI_STATUS_IGNORE);
        }
        MPI_Win_complete(shared);
    }
    MPI_Win_free(&shared);
    MPI_Finalize();
}
