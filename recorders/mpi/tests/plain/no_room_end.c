/* Rank 1 takes the last of many messages first, so MPI puts the others by. A signal keeps its thread for a second in that call, so the sends of rank 0 find no room for a while;
 * they go on behind it, though no receive of these messages has begun. */
#include <mpi.h>
#include <signal.h>
#include <stdio.h>
#include <sys/time.h>
#include <unistd.h>

enum { MESSAGES = 5000, SIZE = 1000 };

static void takes_a_second(int number) {
    (void)number;
    usleep(1000000);
}

int main(int count, char **words) {
    static char message[SIZE];
    int me;
    MPI_Init(&count, &words);
    MPI_Comm_rank(MPI_COMM_WORLD, &me);
    MPI_Barrier(MPI_COMM_WORLD);
    if (me == 0) {
        usleep(300000);
        for (int i = 0; i < MESSAGES; i++) {
            MPI_Send(message, SIZE, MPI_CHAR, 1, 3, MPI_COMM_WORLD);
        }
        MPI_Send(message, SIZE, MPI_CHAR, 1, 9, MPI_COMM_WORLD);
    } else if (me == 1) {
        struct itimerval soon = {.it_value = {.tv_usec = 100000}};
        signal(SIGALRM, takes_a_second);
        setitimer(ITIMER_REAL, &soon, NULL);
        MPI_Recv(message, SIZE, MPI_CHAR, 0, 9, MPI_COMM_WORLD, MPI_STATUS_IGNORE);
        for (int i = 0; i < MESSAGES; i++) {
            MPI_Recv(message, SIZE, MPI_CHAR, 0, 3, MPI_COMM_WORLD, MPI_STATUS_IGNORE);
        }
        puts("end");
    }
    MPI_Finalize();
}
