/* A program that a number decides: the ranks come to barriers of one communicator, sums over a second, gather over a third, and send and receive as it says. Each of
 * these is left out by some rank at times. Each rank says when it has ended. */
#include <mpi.h>
#include <stdio.h>
#include <stdlib.h>
#include <unistd.h>

enum { STEPS = 8 };
enum verb { MEETS, SUMS, GATHERS, PASSES };

static MPI_Comm meeting, summing, gathering;

static void say(int me, const char *verb) {
    char line[40];
    int n = snprintf(line, sizeof line, "rank-%d %s\n", me, verb);
    if (write(1, line, (size_t)n) != n) {
        _exit(1);
    }
}

/* The message of a step goes from one rank to the next one but one or two. */
static void passes(int me, int size, int from, int far) {
    int to = (from + far) % size, number = from;
    if (me == from && me != to) {
        MPI_Send(&number, 1, MPI_INT, to, 0, MPI_COMM_WORLD);
    } else if (me == to && me != from) {
        MPI_Recv(&number, 1, MPI_INT, from, 0, MPI_COMM_WORLD, MPI_STATUS_IGNORE);
    }
}

static void acts(int me, int size, enum verb verb, int number) {
    int sum = 0, all[16];
    switch (verb) {
    case MEETS:
        MPI_Barrier(meeting);
        break;
    case SUMS:
        MPI_Allreduce(&number, &sum, 1, MPI_INT, MPI_SUM, summing);
        break;
    case GATHERS:
        MPI_Allgather(&number, 1, MPI_INT, all, 1, MPI_INT, gathering);
        break;
    default:
        passes(me, size, number % size, 1 + number / size % 2);
    }
}

int main(int count, char **words) {
    int me, size;
    MPI_Init(&count, &words);
    MPI_Comm_rank(MPI_COMM_WORLD, &me);
    MPI_Comm_size(MPI_COMM_WORLD, &size);
    MPI_Comm_dup(MPI_COMM_WORLD, &meeting);
    MPI_Comm_dup(MPI_COMM_WORLD, &summing);
    MPI_Comm_dup(MPI_COMM_WORLD, &gathering);
    say(me, "begins");
    srand(count > 1 ? (unsigned)atoi(words[1]) : 0);
    for (int step = 0; step < STEPS; step++) {
        int verb = rand() % 4, number = rand(), left_out = rand() % 40;
        if (left_out != me) {
            acts(me, size, (enum verb)verb, number);
        }
    }
    MPI_Finalize();
    say(me, "ended");
}
