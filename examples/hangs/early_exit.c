/* early_exit.c: each rank leaves the loop when its own part is done, and rank 1 is done first (3 ranks or more). */
#include <mpi.h>

enum { RIGHT = 11, LEFT = 12 };

struct part {
    int left, right;        /* neighbours */
    double edge[2], halo[2];
};

static void exchange(struct part *p)
{
    MPI_Sendrecv(&p->edge[1], 1, MPI_DOUBLE, p->right, RIGHT, &p->halo[0], 1, MPI_DOUBLE, p->left, RIGHT,
                 MPI_COMM_WORLD, MPI_STATUS_IGNORE);
    MPI_Sendrecv(&p->edge[0], 1, MPI_DOUBLE, p->left, LEFT, &p->halo[1], 1, MPI_DOUBLE, p->right, LEFT,
                 MPI_COMM_WORLD, MPI_STATUS_IGNORE);
}

int main(int argc, char **argv)
{
    int rank, size;

    MPI_Init(&argc, &argv);
    MPI_Comm_rank(MPI_COMM_WORLD, &rank);
    MPI_Comm_size(MPI_COMM_WORLD, &size);
    struct part p = { (rank + size - 1) % size, (rank + 1) % size, { rank, rank }, { 0, 0 } };
    double residual = rank == 1 ? 1e-2 : 1;
    while (1) {
        exchange(&p);
        residual /= 10;
        if (residual < 1e-6)    /* BUG: each rank asks for its own residual, not for the greatest of all */
            break;
    }
    MPI_Barrier(MPI_COMM_WORLD);
    MPI_Finalize();
    return 0;
}
