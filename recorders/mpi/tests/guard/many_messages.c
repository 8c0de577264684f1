/* No deadlock: messages of several tags that are taken in another order than they were sent, from any rank, by requests, and collectives behind one another. */
#include <mpi.h>
#include <stdio.h>

int main(int count, char **words) {
    int me, size, sum = 0, got = 0, total = 0;
    MPI_Init(&count, &words);
    MPI_Comm_rank(MPI_COMM_WORLD, &me);
    MPI_Comm_size(MPI_COMM_WORLD, &size);
    for (int round = 0; round < 50; round++) {
        MPI_Request requests[2];
        int to = (me + 1) % size, from = (me + size - 1) % size, x[2], y[2] = {me, round};
        MPI_Send(&me, 1, MPI_INT, to, 1, MPI_COMM_WORLD);
        MPI_Send(&round, 1, MPI_INT, to, 2, MPI_COMM_WORLD);
        MPI_Recv(&got, 1, MPI_INT, from, 2, MPI_COMM_WORLD, MPI_STATUS_IGNORE);
        total += got;
        MPI_Recv(&got, 1, MPI_INT, from, 1, MPI_COMM_WORLD, MPI_STATUS_IGNORE);
        total += got;
        MPI_Irecv(&x[0], 1, MPI_INT, from, 3, MPI_COMM_WORLD, &requests[0]);
        MPI_Irecv(&x[1], 1, MPI_INT, from, 4, MPI_COMM_WORLD, &requests[1]);
        MPI_Send(&y[1], 1, MPI_INT, to, 4, MPI_COMM_WORLD);
        MPI_Send(&y[0], 1, MPI_INT, to, 3, MPI_COMM_WORLD);
        if (round % 2) {
            MPI_Wait(&requests[0], MPI_STATUS_IGNORE);
            MPI_Wait(&requests[1], MPI_STATUS_IGNORE);
        } else {
            MPI_Waitall(2, requests, MPI_STATUSES_IGNORE);
        }
        total += x[0] + x[1];
        if (me == 0) {
            for (int i = 1; i < size; i++) {
                MPI_Recv(&got, 1, MPI_INT, MPI_ANY_SOURCE, 5, MPI_COMM_WORLD, MPI_STATUS_IGNORE);
                total += got;
            }
        } else {
            MPI_Send(&me, 1, MPI_INT, 0, 5, MPI_COMM_WORLD);
        }
        MPI_Bcast(&total, 1, MPI_INT, round % size, MPI_COMM_WORLD);
        MPI_Reduce(&total, &sum, 1, MPI_INT, MPI_SUM, 0, MPI_COMM_WORLD);
        MPI_Sendrecv(&me, 1, MPI_INT, to, 6, &got, 1, MPI_INT, from, 6, MPI_COMM_WORLD, MPI_STATUS_IGNORE);
        total += got;
        MPI_Allreduce(&total, &sum, 1, MPI_INT, MPI_MAX, MPI_COMM_WORLD);
        total = sum % 1000;
    }
    if (me == 0) {
        printf("%d\nend\n", total);
    }
    MPI_Finalize();
}
