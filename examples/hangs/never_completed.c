/* never_completed.c: ranks wait for all their requests, and one of them is for the end of the run (2 ranks or more). */
#include <mpi.h>

enum { WORK = 1, STOP = 2 };

static double served(void)
{
    double work = 0, stop;
    MPI_Request requests[2];
    MPI_Irecv(&work, 1, MPI_DOUBLE, 0, WORK, MPI_COMM_WORLD, &requests[0]);
    MPI_Irecv(&stop, 1, MPI_DOUBLE, 0, STOP, MPI_COMM_WORLD, &requests[1]);
    MPI_Waitall(2, requests, MPI_STATUSES_IGNORE);      /* BUG: only requests[0] is due; STOP comes after the reduction */
    return work;
}

int main(int argc, char **argv)
{
    int rank, size;
    double x = 1, sum = 0;

    MPI_Init(&argc, &argv);
    MPI_Comm_rank(MPI_COMM_WORLD, &rank);
    MPI_Comm_size(MPI_COMM_WORLD, &size);
    if (rank == 0)
        for (int to = 1; to < size; to++)
            MPI_Send(&x, 1, MPI_DOUBLE, to, WORK, MPI_COMM_WORLD);
    else
        x = served();
    MPI_Reduce(&x, &sum, 1, MPI_DOUBLE, MPI_SUM, 0, MPI_COMM_WORLD);
    if (rank == 0)
        for (int to = 1; to < size; to++)
            MPI_Send(&sum, 1, MPI_DOUBLE, to, STOP, MPI_COMM_WORLD);
    MPI_Finalize();
    return 0;
}
