/* overhead.c: how long a call takes (2 ranks): a ping-pong of 8 bytes, polls that find nothing, and write(2) by itself.
 *
 *     mpirun -n 2 overhead [TRIPS [POLLS]]
 */
#include <fcntl.h>
#include <mpi.h>
#include <stdio.h>
#include <stdlib.h>
#include <string.h>
#include <unistd.h>

enum { TAG = 1, NEVER = 2, WRITE_BYTES = 256, WRITES = 200000 };

static void show(const char *what, double seconds, long calls)
{
    printf("%-24s %7.3f us a call\n", what, seconds / calls * 1e6);
    fflush(stdout);
}

static void ping_pong(int rank, int trips)
{
    double x = 0, begin = MPI_Wtime();
    for (int i = 0; i < trips; i++) {
        if (rank == 0)
            MPI_Send(&x, 1, MPI_DOUBLE, 1, TAG, MPI_COMM_WORLD);
        MPI_Recv(&x, 1, MPI_DOUBLE, 1 - rank, TAG, MPI_COMM_WORLD, MPI_STATUS_IGNORE);
        if (rank == 1)
            MPI_Send(&x, 1, MPI_DOUBLE, 0, TAG, MPI_COMM_WORLD);
    }
    if (rank == 0)      /* a trip is two sends and two receives, one after another */
        show("ping-pong of 8 bytes", MPI_Wtime() - begin, 4L * trips);
}

static void poll_for_nothing(int polls)
{
    int flag;
    double begin = MPI_Wtime();
    for (int i = 0; i < polls; i++)
        MPI_Iprobe(1, NEVER, MPI_COMM_WORLD, &flag, MPI_STATUS_IGNORE);
    show("Iprobe, nothing there", MPI_Wtime() - begin, polls);
}

static void write_alone(const char *path)
{
    char bytes[WRITE_BYTES];
    int file = open(path, O_WRONLY | O_CREAT | O_TRUNC | O_APPEND, 0666);
    memset(bytes, 'x', sizeof bytes);
    double begin = MPI_Wtime();
    for (int i = 0; file >= 0 && i < WRITES; i++)
        if (write(file, bytes, sizeof bytes) < 0)
            break;
    show("write(2) of 256 bytes", MPI_Wtime() - begin, WRITES);
    close(file);
    unlink(path);
}

int main(int argc, char **argv)
{
    int rank, trips = argc > 1 ? atoi(argv[1]) : 200000, polls = argc > 2 ? atoi(argv[2]) : 1000000;

    MPI_Init(&argc, &argv);
    MPI_Comm_rank(MPI_COMM_WORLD, &rank);
    MPI_Barrier(MPI_COMM_WORLD);
    ping_pong(rank, trips);
    if (rank == 0) {
        poll_for_nothing(polls);
        write_alone("overhead.tmp");
    }
    MPI_Finalize();
    return 0;
}
