/* Thousands of communicators, and some windows, one behind the other: what is kept of them does not grow with their number. */
#include <mpi.h>
#include <stdio.h>
#include <string.h>

enum { FIRST = 200, ALL = 1200, GROWS = 1400 };

/* Kilobytes that the program takes. */
static long takes(void) {
    char line[200];
    long found = 0;
    FILE *file = fopen("/proc/self/status", "r");
    while (file != NULL && fgets(line, sizeof line, file) != NULL) {
        if (strncmp(line, "VmData:", 7) == 0) {
            sscanf(line + 7, "%ld", &found);
        }
    }
    fclose(file);
    return found;
}

int main(int count, char **words) {
    long first = 0;
    int me, sum = 0, memory[4];
    MPI_Init(&count, &words);
    MPI_Comm_rank(MPI_COMM_WORLD, &me);
    for (int i = 0; i < ALL; i++) {
        MPI_Comm one, other;
        MPI_Request request;
        MPI_Comm_dup(MPI_COMM_WORLD, &one);
        MPI_Comm_split(one, me % 2, me, &other);
        MPI_Ibarrier(one, &request);
        MPI_Allreduce(&me, &sum, 1, MPI_INT, MPI_SUM, one);
        MPI_Wait(&request, MPI_STATUS_IGNORE);
        MPI_Comm_free(&one);
        MPI_Barrier(other);
        MPI_Comm_free(&other);
        if (i % 10 == 0) {
            MPI_Win w;
            MPI_Win_create(memory, sizeof memory, 1, MPI_INFO_NULL, MPI_COMM_WORLD, &w);
            MPI_Win_fence(0, w);
            MPI_Win_free(&w);
        }
        if (i == FIRST) {
            first = takes();
        }
    }
    printf("%d %s\n", sum, takes() - first > GROWS ? "grows" : "does not grow");
    MPI_Finalize();
}
