/* head_to_head.c: ranks 0 and 1 exchange large messages, and both send first (3 ranks or more).
 *
 * An MPI library buffers a small message, so with small ones the program would run. A large one waits for its receive,
 * which neither of the two ranks reaches.
 */
#include <mpi.h>
#include <stdlib.h>

enum { MANY = 65536, HALF = 7, HELLO = 3, DONE = 1 };

static void exchange(double *mine, double *theirs, int other)
{
    MPI_Send(mine, MANY, MPI_DOUBLE, other, HALF, MPI_COMM_WORLD);      /* BUG: one of both has to receive first */
    MPI_Recv(theirs, MANY, MPI_DOUBLE, other, HALF, MPI_COMM_WORLD, MPI_STATUS_IGNORE);
}

int main(int argc, char **argv)
{
    int rank;
    double step = 0.1, one = 0;
    double *mine = calloc(MANY, sizeof *mine), *theirs = calloc(MANY, sizeof *theirs);

    MPI_Init(&argc, &argv);
    MPI_Comm_rank(MPI_COMM_WORLD, &rank);
    MPI_Bcast(&step, 1, MPI_DOUBLE, 0, MPI_COMM_WORLD);
    if (rank == 0)
        MPI_Send(&step, 1, MPI_DOUBLE, 2, HELLO, MPI_COMM_WORLD);
    if (rank == 2)
        MPI_Recv(&one, 1, MPI_DOUBLE, 0, HELLO, MPI_COMM_WORLD, MPI_STATUS_IGNORE);

    if (rank < 2) {
        exchange(mine, theirs, 1 - rank);
        MPI_Send(theirs, 1, MPI_DOUBLE, 2, DONE, MPI_COMM_WORLD);
    }
    if (rank == 2)
        for (int i = 0; i < 2; i++)
            MPI_Recv(&one, 1, MPI_DOUBLE, MPI_ANY_SOURCE, DONE, MPI_COMM_WORLD, MPI_STATUS_IGNORE);
    MPI_Finalize();
    free(mine);
    free(theirs);
    return 0;
}
