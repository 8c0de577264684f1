/* Comes to its end: two threads of each rank meet at a communicator of their own, in opposite order of time; messages go round; an inter-communicator is met. */
#include <mpi.h>
#include <pthread.h>
#include <stdio.h>
#include <unistd.h>

static MPI_Comm own[2];
static int me;

static void *meet(void *number) {
    int i = (int)(long)number;
    usleep((me + i) % 2 ? 400000 : 0);
    MPI_Barrier(own[i]);
    return NULL;
}

int main(int count, char **words) {
    int given, size, x = 0, y = 0;
    pthread_t t[2];
    MPI_Comm half, both;
    MPI_Request q[2];
    MPI_Status taken[2];
    MPI_Init_thread(&count, &words, MPI_THREAD_MULTIPLE, &given);
    MPI_Comm_rank(MPI_COMM_WORLD, &me);
    MPI_Comm_size(MPI_COMM_WORLD, &size);
    for (int i = 0; i < 2; i++) {
        MPI_Comm_dup(MPI_COMM_WORLD, &own[i]);
    }
    for (long i = 0; given == MPI_THREAD_MULTIPLE && i < 2; i++) {
        pthread_create(&t[i], NULL, meet, (void *)i);
    }
    for (int i = 0; given == MPI_THREAD_MULTIPLE && i < 2; i++) {
        pthread_join(t[i], NULL);
    }
    MPI_Irecv(&x, 1, MPI_INT, (me + size - 1) % size, 3, MPI_COMM_WORLD, &q[0]);
    usleep(300000);
    MPI_Isend(&me, 1, MPI_INT, (me + 1) % size, 3, MPI_COMM_WORLD, &q[1]);
    MPI_Waitall(2, q, taken);
    MPI_Comm_split(MPI_COMM_WORLD, me == 0, me, &half);
    MPI_Intercomm_create(half, 0, MPI_COMM_WORLD, me == 0 ? 1 : 0, 5, &both);
    MPI_Allreduce(&x, &y, 1, MPI_INT, MPI_SUM, both);
    MPI_Bcast(&x, 1, MPI_INT, 0, half);
    usleep(me == 0 ? 500000 : 0);
    MPI_Barrier(MPI_COMM_WORLD);
    if (me == 0) {
        puts("end");
    }
    MPI_Finalize();
}
