/* spawn.c: two spawned worlds at a time, each of two ranks; each has texts of its own (2 ranks). */
#include <mpi.h>

enum { WORLDS = 2, TAG = 4 };

static void spawn(char *program, int rank)
{
    MPI_Comm child[WORLDS];
    int x;
    for (int i = 0; i < WORLDS; i++)
        MPI_Comm_spawn(program, MPI_ARGV_NULL, 2, MPI_INFO_NULL, 0, MPI_COMM_WORLD, &child[i], MPI_ERRCODES_IGNORE);
    for (int i = 0; i < WORLDS && rank == 0; i++)
        MPI_Recv(&x, 1, MPI_INT, 1, TAG, child[i], MPI_STATUS_IGNORE);
    for (int i = 0; i < WORLDS; i++)
        MPI_Comm_disconnect(&child[i]);
}

int main(int argc, char **argv)
{
    MPI_Comm parent;
    int rank;

    MPI_Init(&argc, &argv);
    MPI_Comm_get_parent(&parent);
    MPI_Comm_rank(MPI_COMM_WORLD, &rank);
    if (parent == MPI_COMM_NULL)
        spawn(argv[0], rank);
    else {
        if (rank == 1)
            MPI_Send(&rank, 1, MPI_INT, 0, TAG, parent);
        MPI_Comm_disconnect(&parent);
    }
    MPI_Finalize();
    return 0;
}
