/* odd.c CASE: programs that do unusual things, none of which the tracer may change (3 ranks).
 *
 * What isn't as MPI says is printed as `WRONG ..`.
 */
#include <mpi.h>
#include <pthread.h>
#include <stdio.h>
#include <stdlib.h>
#include <string.h>
#include <sys/wait.h>
#include <unistd.h>

#define WORLD MPI_COMM_WORLD

static int rank, size, left, right;

static void expect(int holds, const char *what)
{
    if (!holds)
        printf("WRONG %s on rank %d\n", what, rank);
}

/* ---- statuses: what the program gets is what it gets untraced ---------------------------------------------------- */

static void statuses(void)
{
    MPI_Request q[8];
    MPI_Status st[8];
    int y[4], n, index, flag, some[4];
    for (int i = 0; i < 4; i++) {
        memset(&st[i], 0x55, sizeof st[i]);
        MPI_Irecv(&y[i], 1, MPI_INT, i % 2 ? left : MPI_ANY_SOURCE, i, WORLD, &q[i]);
        MPI_Isend(&rank, 1, MPI_INT, right, i, WORLD, &q[4 + i]);
    }
    MPI_Waitany(4, q, &index, &st[0]);
    expect(st[0].MPI_SOURCE == left && st[0].MPI_TAG == index && st[0].MPI_ERROR == 0x55555555, "Waitany");
    for (int done = 1; done < 4; done += n) {
        MPI_Waitsome(4, q, &n, some, st);
        for (int i = 0; i < n; i++)
            expect(st[i].MPI_SOURCE == left && st[i].MPI_TAG == some[i], "Waitsome");
    }
    MPI_Waitsome(4, q, &n, some, MPI_STATUSES_IGNORE);
    expect(n == MPI_UNDEFINED, "Waitsome of null requests");
    MPI_Waitall(8, q, st);
    MPI_Isend(&rank, 1, MPI_INT, right, 20, WORLD, &q[0]);
    MPI_Probe(MPI_ANY_SOURCE, 20, WORLD, &st[0]);
    MPI_Recv(y, 1, MPI_INT, MPI_ANY_SOURCE, 20, WORLD, &st[1]);
    MPI_Wait(&q[0], &st[2]);
    expect(st[0].MPI_SOURCE == left && st[1].MPI_SOURCE == left, "Probe");
    MPI_Testany(8, q, &index, &flag, MPI_STATUS_IGNORE);
    expect(flag && index == MPI_UNDEFINED, "Testany of null requests");
    MPI_Recv(y, 1, MPI_INT, MPI_PROC_NULL, 1, WORLD, &st[0]);
    expect(st[0].MPI_SOURCE == MPI_PROC_NULL && st[0].MPI_TAG == MPI_ANY_TAG, "receive from the null process");
}

static void persistent_and_cancelled(void)
{
    MPI_Request q[2];
    MPI_Status st[2];
    int y, flag;
    MPI_Recv_init(&y, 1, MPI_INT, left, 9, WORLD, &q[0]);
    MPI_Send_init(&rank, 1, MPI_INT, right, 9, WORLD, &q[1]);
    for (int i = 0; i < 3; i++) {
        MPI_Startall(2, q);
        MPI_Waitall(2, q, st);
        expect(st[0].MPI_SOURCE == left && q[0] != MPI_REQUEST_NULL, "persistent");
    }
    MPI_Request_free(&q[0]);
    MPI_Request_free(&q[1]);
    MPI_Irecv(&y, 1, MPI_INT, MPI_ANY_SOURCE, 99, WORLD, &q[0]);
    MPI_Cancel(&q[0]);
    MPI_Wait(&q[0], &st[0]);
    MPI_Test_cancelled(&st[0], &flag);
    expect(flag, "cancelled");
}

/* ---- calls that fail ---------------------------------------------------------------------------------------------- */

static void errors(void)
{
    int many[4] = { 0 }, one;
    MPI_Comm copy;
    MPI_Comm_set_errhandler(WORLD, MPI_ERRORS_RETURN);
    expect(MPI_Send(many, 1, MPI_INT, size + 5, 1, WORLD) != MPI_SUCCESS, "send to nobody");
    if (rank == 0)
        MPI_Send(many, 4, MPI_INT, 1, 2, WORLD);
    if (rank == 1) {
        MPI_Request q;
        int class = MPI_SUCCESS;
        MPI_Irecv(&one, 1, MPI_INT, 0, 2, WORLD, &q);
        MPI_Error_class(MPI_Wait(&q, MPI_STATUS_IGNORE), &class);
        expect(class == MPI_ERR_TRUNCATE && q == MPI_REQUEST_NULL, "truncation");
    }
    MPI_Comm_dup(WORLD, &copy);
    MPI_Comm_free(&copy);
}

/* ---- arguments: operations, and lists of counts that only a root need have ---------------------------------------- */

static void add(void *in, void *inout, int *n, MPI_Datatype *type)
{
    (void)type;
    for (int i = 0; i < *n; i++)
        ((int *)inout)[i] += ((int *)in)[i];
}

static void arguments(void)
{
    int counts[64], displs[64], in[64] = { 0 }, out[64], sum = 0, mine = rank + 1;
    int *nowhere = (int *)16, *c = rank == 1 ? counts : nowhere, *d = rank == 1 ? displs : nowhere;
    MPI_Request q;
    MPI_Op own;
    MPI_Comm row, inter;
    for (int i = 0; i < size; i++) {
        counts[i] = i + 1;
        displs[i] = 4 * i;
    }
    MPI_Gatherv(in, mine, MPI_INT, out, c, d, MPI_INT, 1, WORLD);
    MPI_Scatterv(in, c, d, MPI_INT, out, mine, MPI_INT, 1, WORLD);
    MPI_Igatherv(in, mine, MPI_INT, out, c, d, MPI_INT, 1, WORLD, &q);
    MPI_Wait(&q, MPI_STATUS_IGNORE);
    MPI_Allgatherv(in, mine, MPI_INT, out, counts, displs, MPI_INT, WORLD);
    MPI_Reduce_scatter(in, out, counts, MPI_INT, MPI_PROD, WORLD);
    MPI_Op_create(add, 1, &own);
    MPI_Allreduce(&rank, &sum, 1, MPI_INT, own, WORLD);
    expect(sum == size * (size - 1) / 2, "own operation");
    MPI_Op_free(&own);
    MPI_Comm_split(WORLD, rank == 0, rank, &row);
    MPI_Allgatherv(in, rank == 2 ? 2 : 1, MPI_INT, out, counts, displs, MPI_INT, row);
    MPI_Intercomm_create(row, 0, WORLD, rank == 0, 5, &inter);
    MPI_Gatherv(in, rank, MPI_INT, out, rank ? nowhere : counts, rank ? nowhere : displs, MPI_INT, rank ? 0 : MPI_ROOT, inter);
    MPI_Comm_free(&inter);
    MPI_Comm_free(&row);
}

/* ---- long lists: a reader refuses long lines ----------------------------------------------------------------------- */

static void many(void)
{
    enum { MANY = 4000 };
    static MPI_Request q[MANY];
    static int y[MANY];
    for (int i = 0; i < MANY; i++)
        MPI_Irecv(&y[i], 1, MPI_INT, MPI_ANY_SOURCE, i % 1000, WORLD, &q[i]);
    for (int i = 0; i < MANY; i++)
        MPI_Send(&rank, 1, MPI_INT, right, i % 1000, WORLD);
    MPI_Waitall(MANY, q, MPI_STATUSES_IGNORE);
}

/* ---- polls: ranks 1 and 2 ask 500 times for two things, then until one comes -------------------------------------- */

static void polls(void)
{
    enum { POLLS = 500, NEVER = 4, ANSWER = 5, ASKED = 6 };
    int x;
    if (rank == 0) {
        for (int i = 1; i < size; i++)
            MPI_Recv(&x, 1, MPI_INT, MPI_ANY_SOURCE, ASKED, WORLD, MPI_STATUS_IGNORE);
        for (int to = 1; to < size; to++)
            MPI_Send(&rank, 1, MPI_INT, to, ANSWER, WORLD);
        return;
    }
    for (int i = 0, there = 0, other; i < POLLS || !there; i++) {
        MPI_Iprobe(MPI_ANY_SOURCE, NEVER, WORLD, &other, MPI_STATUS_IGNORE);
        MPI_Iprobe(0, ANSWER, WORLD, &there, MPI_STATUS_IGNORE);
        if (i == POLLS)
            MPI_Send(&rank, 1, MPI_INT, 0, ASKED, WORLD);
    }
    MPI_Recv(&x, 1, MPI_INT, 0, ANSWER, WORLD, MPI_STATUS_IGNORE);
}

/* ---- threads, and children --------------------------------------------------------------------------------------- */

static void *receive_one(void *unused)
{
    int y;
    (void)unused;
    MPI_Recv(&y, 1, MPI_INT, MPI_ANY_SOURCE, 7, WORLD, MPI_STATUS_IGNORE);
    return NULL;
}

static void threads(void)
{
    pthread_t t[3];
    for (int i = 0; i < 3; i++)
        pthread_create(&t[i], NULL, receive_one, NULL);
    for (int i = 0; i < 3; i++)
        MPI_Send(&rank, 1, MPI_INT, right, 7, WORLD);
    for (int i = 0; i < 3; i++)
        pthread_join(t[i], NULL);
}

/* The child's exec fails, and it calls MPI before it ends. */
static void forks(void)
{
    int status, mine;
    pid_t child = fork();
    if (child == 0) {
        execl("/no/such/program", "x", (char *)NULL);
        MPI_Comm_rank(WORLD, &mine);
        _exit(mine == rank ? 7 : 8);
    }
    waitpid(child, &status, 0);
    expect(WIFEXITED(status) && WEXITSTATUS(status) == 7, "child");
    expect(system("true") == 0, "system");
}

static const struct {
    const char *name;
    void (*run)(void);
} cases[] = {
    { "statuses", statuses }, { "persistent", persistent_and_cancelled }, { "errors", errors }, { "arguments", arguments },
    { "many", many }, { "polls", polls }, { "threads", threads }, { "forks", forks },
};

int main(int argc, char **argv)
{
    const char *name = argc > 1 ? argv[1] : "";
    int provided;
    MPI_Init_thread(&argc, &argv, strcmp(name, "threads") ? MPI_THREAD_SINGLE : MPI_THREAD_MULTIPLE, &provided);
    MPI_Comm_rank(WORLD, &rank);
    MPI_Comm_size(WORLD, &size);
    left = (rank + size - 1) % size;
    right = (rank + 1) % size;
    for (size_t i = 0; i < sizeof cases / sizeof *cases; i++)
        if (strcmp(name, cases[i].name) == 0)
            cases[i].run();
    MPI_Barrier(WORLD);
    MPI_Finalize();
    return 0;
}
