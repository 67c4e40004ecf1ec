/* missing_send.c: a running sum goes from rank to rank; the last but one doesn't pass it on (3 ranks or more). */
#include <mpi.h>

enum { SUM = 5 };

static double pass_on(double mine, int rank, int size)
{
    double sum = 0;
    if (rank > 0)
        MPI_Recv(&sum, 1, MPI_DOUBLE, rank - 1, SUM, MPI_COMM_WORLD, MPI_STATUS_IGNORE);
    sum += mine;
    if (rank < size - 2)    /* BUG: size - 1 */
        MPI_Send(&sum, 1, MPI_DOUBLE, rank + 1, SUM, MPI_COMM_WORLD);
    return sum;
}

int main(int argc, char **argv)
{
    int rank, size;

    MPI_Init(&argc, &argv);
    MPI_Comm_rank(MPI_COMM_WORLD, &rank);
    MPI_Comm_size(MPI_COMM_WORLD, &size);
    double sum = pass_on(1.0 / (rank + 1), rank, size);
    MPI_Bcast(&sum, 1, MPI_DOUBLE, size - 1, MPI_COMM_WORLD);
    MPI_Finalize();
    return 0;
}
