/* Rank 0 takes three messages of any tag from rank 1, which sends two; rank 2 has sent one more, but it is not asked. */
#include <mpi.h>

int main(int count, char **words) {
    int me, x = 0;
    MPI_Init(&count, &words);
    MPI_Comm_rank(MPI_COMM_WORLD, &me);
    if (me == 0) {
        for (int i = 0; i < 3; i++) {
            MPI_Recv(&x, 1, MPI_INT, 1, MPI_ANY_TAG, MPI_COMM_WORLD, MPI_STATUS_IGNORE);
        }
    } else {
        for (int i = 0; i < 3 - me; i++) {
            MPI_Send(&x, 1, MPI_INT, 0, 10 * i + me, MPI_COMM_WORLD);
        }
    }
    MPI_Barrier(MPI_COMM_WORLD);
    MPI_Finalize();
}
