/* ends.c HOW: rank 1 ends in an unusual way, and the others wait for it; or all work without end, or for a million calls. */
#include <mpi.h>
#include <signal.h>
#include <stdlib.h>
#include <string.h>

enum { TAG = 1, CALLS = 1000000 };

/* Until it is killed. */
static void work(int rank, int size)
{
    double out[2] = { rank, rank }, in[2], sum;
    int left = (rank + size - 1) % size, right = (rank + 1) % size;
    MPI_Request q[4];
    while (1) {
        MPI_Irecv(&in[0], 1, MPI_DOUBLE, left, TAG, MPI_COMM_WORLD, &q[0]);
        MPI_Irecv(&in[1], 1, MPI_DOUBLE, MPI_ANY_SOURCE, TAG + 1, MPI_COMM_WORLD, &q[1]);
        MPI_Isend(&out[0], 1, MPI_DOUBLE, right, TAG, MPI_COMM_WORLD, &q[2]);
        MPI_Isend(&out[1], 1, MPI_DOUBLE, left, TAG + 1, MPI_COMM_WORLD, &q[3]);
        MPI_Waitall(4, q, MPI_STATUSES_IGNORE);
        MPI_Allreduce(&in[0], &sum, 1, MPI_DOUBLE, MPI_SUM, MPI_COMM_WORLD);
    }
}

int main(int argc, char **argv)
{
    const char *how = argc > 1 ? argv[1] : "";
    int rank, size, x = 0;

    MPI_Init(&argc, &argv);
    MPI_Comm_rank(MPI_COMM_WORLD, &rank);
    MPI_Comm_size(MPI_COMM_WORLD, &size);
    if (strcmp(how, "work") == 0)
        work(rank, size);
    if (strcmp(how, "million") == 0)
        for (int i = 0; i < CALLS; i++)
            MPI_Send(&x, 1, MPI_INT, MPI_PROC_NULL, TAG, MPI_COMM_WORLD);
    MPI_Barrier(MPI_COMM_WORLD);
    if (rank == 1) {
        if (strcmp(how, "abort") == 0)
            MPI_Abort(MPI_COMM_WORLD, 3);
        if (strcmp(how, "exit") == 0)
            exit(4);
        if (strcmp(how, "crash") == 0)
            raise(SIGSEGV);
    }
    MPI_Allreduce(MPI_IN_PLACE, &x, 1, MPI_INT, MPI_MAX, MPI_COMM_WORLD);
    MPI_Finalize();
    return 0;
}
