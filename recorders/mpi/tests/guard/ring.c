/* Each rank first takes from the next one, and nobody has sent. Whoever is refused sends first. */
#include <mpi.h>
#include <stdio.h>
#include <string.h>

int main(int count, char **words) {
    int me, size, x = 0, n;
    char text[MPI_MAX_ERROR_STRING];
    MPI_Init(&count, &words);
    MPI_Comm_rank(MPI_COMM_WORLD, &me);
    MPI_Comm_size(MPI_COMM_WORLD, &size);
    MPI_Comm_set_errhandler(MPI_COMM_WORLD, MPI_ERRORS_RETURN);
    int result = MPI_Recv(&x, 1, MPI_INT, (me + 1) % size, 0, MPI_COMM_WORLD, MPI_STATUS_IGNORE);
    MPI_Send(&me, 1, MPI_INT, (me + size - 1) % size, 0, MPI_COMM_WORLD);
    if (result != MPI_SUCCESS) {
        MPI_Error_string(result, text, &n);
        puts(strstr(text, "would wait for rank-") != NULL ? "refused" : text);
        MPI_Recv(&x, 1, MPI_INT, (me + 1) % size, 0, MPI_COMM_WORLD, MPI_STATUS_IGNORE);
    }
    if (x != (me + 1) % size) {
        printf("rank %d got %d\n", me, x);
    }
    fflush(stdout);
    MPI_Barrier(MPI_COMM_WORLD);
    if (me == 0) {
        puts("end");
    }
    MPI_Finalize();
}
