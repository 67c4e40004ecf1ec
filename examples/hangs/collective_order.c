/* collective_order.c: rank 0 makes two collective calls in another order than the others (2 ranks or more). */
#include <mpi.h>

enum { MANY = 65536 };
static double table[MANY], in[MANY], out[MANY];

/* Rank 0 reads the table, so it has it before the others. */
static void begin(int rank)
{
    if (rank == 0) {
        MPI_Reduce(in, out, MANY, MPI_DOUBLE, MPI_MAX, 0, MPI_COMM_WORLD);  /* BUG: the others broadcast first */
        MPI_Bcast(table, MANY, MPI_DOUBLE, 0, MPI_COMM_WORLD);
    } else {
        MPI_Bcast(table, MANY, MPI_DOUBLE, 0, MPI_COMM_WORLD);
        MPI_Reduce(in, out, MANY, MPI_DOUBLE, MPI_MAX, 0, MPI_COMM_WORLD);
    }
}

int main(int argc, char **argv)
{
    int rank;

    MPI_Init(&argc, &argv);
    MPI_Comm_rank(MPI_COMM_WORLD, &rank);
    begin(rank);
    MPI_Finalize();
    return 0;
}
