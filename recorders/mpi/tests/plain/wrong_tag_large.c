/* Rank 1 sends a large message with tag 3, which waits for its receiver; rank 0 receives one with tag 7. */
#include <mpi.h>

enum { LARGE = 1 << 20 };
static double numbers[LARGE];

int main(int count, char **words) {
    int me;
    MPI_Init(&count, &words);
    MPI_Comm_rank(MPI_COMM_WORLD, &me);
    if (me == 0) {
        MPI_Recv(numbers, LARGE, MPI_DOUBLE, 1, 7, MPI_COMM_WORLD, MPI_STATUS_IGNORE);
    } else if (me == 1) {
        MPI_Send(numbers, LARGE, MPI_DOUBLE, 0, 3, MPI_COMM_WORLD);
    }
    MPI_Finalize();
}
