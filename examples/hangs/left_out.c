/* left_out.c: the last rank has no particles and leaves out a collective call (2 ranks or more). */
#include <mpi.h>

enum { REPORT = 4 };

/* The kinetic energy of all particles. */
static double energy(int particles, double mine)
{
    double sum = 0;
    if (particles > 0)      /* BUG: a rank without particles has to call it too */
        MPI_Allreduce(&mine, &sum, 1, MPI_DOUBLE, MPI_SUM, MPI_COMM_WORLD);
    return sum;
}

int main(int argc, char **argv)
{
    int rank, size;

    MPI_Init(&argc, &argv);
    MPI_Comm_rank(MPI_COMM_WORLD, &rank);
    MPI_Comm_size(MPI_COMM_WORLD, &size);
    double sum = energy(size - 1 - rank, 0.5 * rank);
    if (rank == 0)
        for (int to = 1; to < size; to++)
            MPI_Send(&sum, 1, MPI_DOUBLE, to, REPORT, MPI_COMM_WORLD);
    else
        MPI_Recv(&sum, 1, MPI_DOUBLE, 0, REPORT, MPI_COMM_WORLD, MPI_STATUS_IGNORE);
    MPI_Finalize();
    return 0;
}
