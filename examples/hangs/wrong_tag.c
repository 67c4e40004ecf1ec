/* wrong_tag.c: rank 0 hands out blocks; the others wait for theirs with the tag of another message (2 ranks or more). */
#include <mpi.h>

enum { LENGTH = 1, BLOCK = 2, MOST = 64 };

static void hand_out(int size)
{
    double block[MOST] = { 0 };
    for (int to = 1; to < size; to++) {
        int n = MOST - to % 8;
        MPI_Send(&n, 1, MPI_INT, to, LENGTH, MPI_COMM_WORLD);
        MPI_Send(block, n, MPI_DOUBLE, to, BLOCK, MPI_COMM_WORLD);
    }
}

static double sum_of_block(void)
{
    int n;
    double block[MOST], sum = 0;
    MPI_Recv(&n, 1, MPI_INT, 0, LENGTH, MPI_COMM_WORLD, MPI_STATUS_IGNORE);
    MPI_Recv(block, n, MPI_DOUBLE, 0, LENGTH, MPI_COMM_WORLD, MPI_STATUS_IGNORE);   /* BUG: the tag is BLOCK */
    for (int i = 0; i < n; i++)
        sum += block[i];
    return sum;
}

int main(int argc, char **argv)
{
    int rank, size;
    double mine = 0, sum = 0;

    MPI_Init(&argc, &argv);
    MPI_Comm_rank(MPI_COMM_WORLD, &rank);
    MPI_Comm_size(MPI_COMM_WORLD, &size);
    if (rank == 0)
        hand_out(size);
    else
        mine = sum_of_block();
    MPI_Reduce(&mine, &sum, 1, MPI_DOUBLE, MPI_SUM, 0, MPI_COMM_WORLD);
    MPI_Finalize();
    return 0;
}
