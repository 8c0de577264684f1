/* Rank 1 takes messages from anybody and does not ask whose they were. Then a signal keeps its thread for a second in such a call, while the message that it waits for is there,
 * and the others wait at the barrier. */
#include <mpi.h>
#include <signal.h>
#include <stdio.h>
#include <sys/time.h>
#include <unistd.h>

static void takes_a_second(int number) {
    (void)number;
    usleep(1000000);
}

int main(int count, char **words) {
    int me, x = 0, y = 0;
    MPI_Init(&count, &words);
    MPI_Comm_rank(MPI_COMM_WORLD, &me);
    if (me != 1) {
        MPI_Send(&me, 1, MPI_INT, 1, 3, MPI_COMM_WORLD);
    } else {
        MPI_Request q[2];
        MPI_Irecv(&x, 1, MPI_INT, MPI_ANY_SOURCE, MPI_ANY_TAG, MPI_COMM_WORLD, &q[0]);
        MPI_Irecv(&y, 1, MPI_INT, MPI_ANY_SOURCE, 3, MPI_COMM_WORLD, &q[1]);
        MPI_Waitall(2, q, MPI_STATUSES_IGNORE);
    }
    MPI_Barrier(MPI_COMM_WORLD);
    if (me == 0) {
        usleep(300000);
        MPI_Send(&me, 1, MPI_INT, 1, 5, MPI_COMM_WORLD);
    } else if (me == 1) {
        struct itimerval soon = {.it_value = {.tv_usec = 100000}};
        signal(SIGALRM, takes_a_second);
        setitimer(ITIMER_REAL, &soon, NULL);
        MPI_Recv(&x, 1, MPI_INT, MPI_ANY_SOURCE, 5, MPI_COMM_WORLD, MPI_STATUS_IGNORE);
        puts("end");
    }
    MPI_Barrier(MPI_COMM_WORLD);
    MPI_Finalize();
}
