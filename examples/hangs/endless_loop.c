/* endless_loop.c: rank 0 looks for the root of a negative number and never comes back (3 ranks or more). */
#include <mpi.h>

/* The square root of a number, by Newton's method. */
static double root_of(double number)
{
    double root = 1, last = 0;
    while (root != last) {      /* BUG: of a negative number the steps come to no end */
        last = root;
        root = (last + number / last) / 2;
    }
    return root;
}

int main(int argc, char **argv)
{
    int rank;
    double sum = 0;

    MPI_Init(&argc, &argv);
    MPI_Comm_rank(MPI_COMM_WORLD, &rank);
    double mine = 1 - 2 * rank;
    MPI_Reduce(&mine, &sum, 1, MPI_DOUBLE, MPI_SUM, 0, MPI_COMM_WORLD);
    if (rank == 0)
        sum = root_of(sum - 1);
    MPI_Bcast(&sum, 1, MPI_DOUBLE, 0, MPI_COMM_WORLD);
    MPI_Finalize();
    return 0;
}
