/* Comes to its end: windows of all kinds, made and freed again and again, with fences, epochs of a few ranks, and locks; each rank is late at times. */
#include <mpi.h>
#include <stdio.h>
#include <unistd.h>

static int me, size;

static void fences(MPI_Win w) {
    for (int turn = 0; turn < 5; turn++) {
        MPI_Win_fence(turn == 0 ? MPI_MODE_NOPRECEDE : 0, w);
        usleep((unsigned)((me + turn) % size) * 30000);
        MPI_Put(&me, 1, MPI_INT, (me + 1) % size, 0, 1, MPI_INT, w);
    }
    MPI_Win_fence(MPI_MODE_NOSUCCEED, w);
}

/* Each rank in its turn uses the memory of all others. */
static void epochs(MPI_Win w, MPI_Group world) {
    for (int user = 0; user < size; user++) {
        MPI_Group group;
        if (me == user) {
            MPI_Group_excl(world, 1, &user, &group);
            MPI_Win_start(group, 0, w);
            for (int r = 0; r < size; r++) {
                if (r != me) {
                    MPI_Put(&me, 1, MPI_INT, r, 0, 1, MPI_INT, w);
                }
            }
            usleep(200000);
            MPI_Win_complete(w);
        } else {
            MPI_Group_incl(world, 1, &user, &group);
            usleep((unsigned)me * 50000);
            MPI_Win_post(group, 0, w);
            if (me % 2 == 0) {
                MPI_Win_wait(w);
            } else {
                for (int over = 0; !over; usleep(1000)) {
                    MPI_Win_test(w, &over);
                }
            }
        }
        MPI_Group_free(&group);
    }
}

static void locks(MPI_Win w) {
    int one = 1;
    for (int turn = 0; turn < 10; turn++) {
        MPI_Win_lock(MPI_LOCK_EXCLUSIVE, turn % size, 0, w);
        MPI_Accumulate(&one, 1, MPI_INT, turn % size, 0, 1, MPI_INT, MPI_SUM, w);
        MPI_Win_unlock(turn % size, w);
    }
}

int main(int count, char **words) {
    int *own;
    MPI_Win w;
    MPI_Comm pair;
    MPI_Group world;
    MPI_Init(&count, &words);
    MPI_Comm_rank(MPI_COMM_WORLD, &me);
    MPI_Comm_size(MPI_COMM_WORLD, &size);
    MPI_Comm_group(MPI_COMM_WORLD, &world);
    MPI_Comm_split(MPI_COMM_WORLD, me / 2, 0, &pair);
    for (int turn = 0; turn < 3; turn++) {
        MPI_Win_allocate(sizeof *own, sizeof *own, MPI_INFO_NULL, MPI_COMM_WORLD, &own, &w);
        fences(w);
        epochs(w, world);
        locks(w);
        MPI_Win_free(&w);
        MPI_Win_allocate(sizeof *own, sizeof *own, MPI_INFO_NULL, pair, &own, &w);
        usleep((unsigned)me * 100000);
        MPI_Win_fence(0, w);
        MPI_Win_free(&w);
    }
    if (me == 0) {
        puts("end");
    }
    MPI_Finalize();
}
