/* A program that a number decides: messages of several tags in two communicators go from rank to rank, sent in different ways and received from one or from anybody, with
 * one tag or any, by a request or taken out first. Some rank leaves out what it has to do at times. Each rank says when it has ended. */
#include <mpi.h>
#include <stdio.h>
#include <stdlib.h>
#include <unistd.h>

enum { STEPS = 12, WAYS = 6 };
static MPI_Comm communicators[2];

static void say(int me, const char *verb) {
    char line[40];
    int n = snprintf(line, sizeof line, "rank-%d %s\n", me, verb);
    if (write(1, line, (size_t)n) != n) {
        _exit(1);
    }
}

static void sends(int way, int to, int tag, MPI_Comm c) {
    int number = way;
    MPI_Request q;
    if (way == 0) {
        MPI_Ssend(&number, 1, MPI_INT, to, tag, c);
    } else if (way == 1) {
        MPI_Isend(&number, 1, MPI_INT, to, tag, c, &q);
        MPI_Wait(&q, MPI_STATUS_IGNORE);
    } else {
        MPI_Send(&number, 1, MPI_INT, to, tag, c);
    }
}

static void receives(int way, int from, int tag, MPI_Comm c) {
    int number;
    MPI_Request q;
    MPI_Message message;
    if (way == 0) {
        MPI_Mprobe(from, tag, c, &message, MPI_STATUS_IGNORE);
        MPI_Mrecv(&number, 1, MPI_INT, &message, MPI_STATUS_IGNORE);
    } else if (way == 1) {
        MPI_Irecv(&number, 1, MPI_INT, from, tag, c, &q);
        MPI_Wait(&q, MPI_STATUS_IGNORE);
    } else if (way == 2) {
        MPI_Probe(from, tag, c, MPI_STATUS_IGNORE);
        MPI_Recv(&number, 1, MPI_INT, from, tag, c, MPI_STATUS_IGNORE);
    } else {
        MPI_Recv(&number, 1, MPI_INT, way == 3 ? MPI_ANY_SOURCE : from, way >= 4 ? MPI_ANY_TAG : tag, c, MPI_STATUS_IGNORE);
    }
}

int main(int count, char **words) {
    int me, size;
    MPI_Init(&count, &words);
    MPI_Comm_rank(MPI_COMM_WORLD, &me);
    MPI_Comm_size(MPI_COMM_WORLD, &size);
    communicators[0] = MPI_COMM_WORLD;
    MPI_Comm_dup(MPI_COMM_WORLD, &communicators[1]);
    say(me, "begins");
    srand(count > 1 ? (unsigned)atoi(words[1]) : 0);
    for (int step = 0; step < STEPS; step++) {
        int from = rand() % size, to = (from + 1 + rand() % (size - 1)) % size, tag = rand() % 3, way = rand() % WAYS, which = rand() % 2, left_out = rand() % 60;
        if (left_out != me && me == from) {
            sends(way, to, tag, communicators[which]);
        } else if (left_out != me && me == to) {
            receives(way, from, tag, communicators[which]);
        }
    }
    MPI_Finalize();
    say(me, "ended");
}
