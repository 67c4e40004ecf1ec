/* stolen_message.c: a receive of any tag takes a message that another receive is for (3 ranks). */
#include <mpi.h>

enum { READY = 1, RESULT = 2, TURN = 3 };

static void collect(int size)
{
    int x;
    for (int i = 1; i < size; i++)      /* until all are ready */
        MPI_Recv(&x, 1, MPI_INT, MPI_ANY_SOURCE, MPI_ANY_TAG, MPI_COMM_WORLD, MPI_STATUS_IGNORE);   /* BUG: the tag is READY */
    for (int from = 1; from < size; from++)
        MPI_Recv(&x, 1, MPI_INT, from, RESULT, MPI_COMM_WORLD, MPI_STATUS_IGNORE);
}

/* One after the other, in the order of the ranks. */
static void work(int rank, int size)
{
    int x = rank;
    if (rank > 1)
        MPI_Recv(&x, 1, MPI_INT, rank - 1, TURN, MPI_COMM_WORLD, MPI_STATUS_IGNORE);
    MPI_Send(&rank, 1, MPI_INT, 0, READY, MPI_COMM_WORLD);
    MPI_Send(&x, 1, MPI_INT, 0, RESULT, MPI_COMM_WORLD);
    if (rank < size - 1)
        MPI_Send(&x, 1, MPI_INT, rank + 1, TURN, MPI_COMM_WORLD);
}

int main(int argc, char **argv)
{
    int rank, size;

    MPI_Init(&argc, &argv);
    MPI_Comm_rank(MPI_COMM_WORLD, &rank);
    MPI_Comm_size(MPI_COMM_WORLD, &size);
    if (rank == 0)
        collect(size);
    else
        work(rank, size);
    MPI_Barrier(MPI_COMM_WORLD);
    MPI_Finalize();
    return 0;
}
