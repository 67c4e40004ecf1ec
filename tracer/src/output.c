/* output.c: the text of this process.
 *
 * MPIMATCH_DIR (mpimatch-trace) gets rank-00000.txt and so on. Launchers say in a variable which rank a process will have;
 * where none does, the text is called starting-HOST-PID until MPI_Init has returned. Processes that MPI_Comm_spawn has
 * started have a world and ranks of their own, so their texts go to a folder below, one for each spawned world.
 */
#include "output.h"
#include "call.h"
#include "handle.h"

#include <errno.h>
#include <fcntl.h>
#include <limits.h>
#include <pthread.h>
#include <stdio.h>
#include <stdlib.h>
#include <string.h>
#include <sys/stat.h>
#include <unistd.h>

/* Programs that close all descriptors up to some number leave this one alone. */
#define HIGH_DESCRIPTOR 240
/* A write(2) goes on by pages of the file; a SIGKILL may end it between two of them. */
#define PAGE 4096

static int descriptor = -1;
static int ended;               /* nothing more is written, and that was said */
static int forked;              /* this is a child that the process has forked */
static size_t length;           /* of the text */
static char path[PATH_MAX];
static pthread_mutex_t lock = PTHREAD_MUTEX_INITIALIZER;

void output_ends(const char *why)
{
    if (!__atomic_exchange_n(&ended, 1, __ATOMIC_RELAXED))
        fprintf(stderr, "mpimatch tracer: %s; this process is traced no further\n", why);
}

static void fails(const char *what, const char *name)
{
    char why[PATH_MAX + 256];
    snprintf(why, sizeof why, "can't %s %s: %s", what, name, strerror(errno));
    output_ends(why);
}

/* ---- names ----------------------------------------------------------------------------------------------------- */

static const char *folder(void)
{
    const char *named = getenv("MPIMATCH_DIR");
    return named && *named ? named : "mpimatch-trace";
}

/* Makes a folder and those above it. */
static int make_folder(const char *name)
{
    char part[PATH_MAX];
    snprintf(part, sizeof part, "%s", name);
    for (char *p = part + 1; *p; p++)
        if (*p == '/') {
            *p = 0;
            mkdir(part, 0777);
            *p = '/';
        }
    if (mkdir(part, 0777) == 0 || errno == EEXIST)
        return 1;
    fails("make the folder", part);
    return 0;
}

static int rank_by_launcher(void)
{
    static const char *const names[] = { "OMPI_COMM_WORLD_RANK", "PMI_RANK", "MV2_COMM_WORLD_RANK", "PALS_RANKID", NULL };
    for (int i = 0; names[i]; i++) {
        const char *rank = getenv(names[i]);
        if (rank && *rank >= '0' && *rank <= '9')
            return atoi(rank);
    }
    return -1;
}

static int is_spawned_by_launcher(void)
{
    const char *pmi = getenv("PMI_SPAWNED");
    return getenv("OMPI_PARENT_PORT") != NULL || (pmi && strcmp(pmi, "0") != 0);
}

/* HOST-PID, fit for the name of a file. */
static void name_process(char *name, size_t room, pid_t pid)
{
    char host[65] = "host";
    gethostname(host, sizeof host - 1);
    for (char *p = host; *p; p++)
        if (*p == '/')
            *p = '_';
    snprintf(name, room, "%s-%ld", host, (long)pid);
}

/* The folder of this spawned world. The tracer sends no messages of its own, so where no launcher names the world, the
 * processes of one machine share a folder, that of the process which started them. */
static void name_spawned_folder(char *name, size_t room)
{
    char world[128];
    const char *job = getenv("PMIX_NAMESPACE");
    if (job && *job && !strchr(job, '/'))
        snprintf(world, sizeof world, "%s", job);
    else
        name_process(world, sizeof world, getppid());
    snprintf(name, room, "%s/spawned-%s", folder(), world);
}

/* ---- the file -------------------------------------------------------------------------------------------------- */

/* A child that goes on after a failed exec may call MPI; this isn't its text. */
static void in_child(void)
{
    forked = 1;
}

int output_is_open(void)
{
    return __atomic_load_n(&descriptor, __ATOMIC_ACQUIRE) >= 0 && !forked && !__atomic_load_n(&ended, __ATOMIC_RELAXED);
}

/* The first name of the text; false where it is too long. */
static int name_text(void)
{
    int rank = rank_by_launcher();
    char process[128];
    if (rank >= 0 && !is_spawned_by_launcher())
        return snprintf(path, sizeof path, "%s/rank-%05d.txt", folder(), rank) < (int)sizeof path;
    name_process(process, sizeof process, getpid());
    return snprintf(path, sizeof path, "%s/starting-%s", folder(), process) < (int)sizeof path;
}

static void open_text(void)
{
    if (!make_folder(folder()))
        return;
    if (!name_text()) {
        errno = ENAMETOOLONG;
        fails("write in", folder());
        return;
    }
    /* The text of an earlier run goes. Should a process still write it, both won't write into one file. */
    unlink(path);
    int low = open(path, O_WRONLY | O_CREAT | O_EXCL | O_APPEND | O_CLOEXEC, 0666);
    if (low < 0) {
        fails("write", path);
        return;
    }
    int high = fcntl(low, F_DUPFD_CLOEXEC, HIGH_DESCRIPTOR);
    if (high >= 0)
        close(low);
    name_constants();
    pthread_atfork(NULL, NULL, in_child);
    __atomic_store_n(&descriptor, high >= 0 ? high : low, __ATOMIC_RELEASE);
}

int output_opens(void)
{
    if (forked || ended)
        return 0;
    pthread_mutex_lock(&lock);
    if (descriptor < 0 && !ended)
        open_text();
    pthread_mutex_unlock(&lock);
    return output_is_open();
}

static int is_still_ours(void)
{
    struct stat named, opened;
    return stat(path, &named) == 0 && fstat(descriptor, &opened) == 0
        && named.st_dev == opened.st_dev && named.st_ino == opened.st_ino;
}

/* Texts of an earlier run that had more ranks would be read as if they were of this one. */
static void remove_texts_from(const char *in, int rank)
{
    char name[PATH_MAX];
    do
        snprintf(name, sizeof name, "%s/rank-%05d.txt", in, rank++);
    while (unlink(name) == 0);
}

/* A reader compares the counts of a message and its receive where both have one datatype number. Types that programs make
 * need not be alike on two ranks, so no two ranks have a number of them in common. */
#define DATATYPES_OF_A_RANK 65536

void output_has_rank(void)
{
    char in[PATH_MAX - 32], name[PATH_MAX];
    int rank, size;
    MPI_Comm parent;
    NEXT(MPI_Comm_rank)(MPI_COMM_WORLD, &rank);
    NEXT(MPI_Comm_size)(MPI_COMM_WORLD, &size);
    NEXT(MPI_Comm_get_parent)(&parent);
    number_from(DATATYPES, DATATYPES_OF_A_RANK * (rank + 1));
    snprintf(in, sizeof in, "%s", folder());
    if (parent != MPI_COMM_NULL) {
        name_spawned_folder(in, sizeof in);
        if (!make_folder(in))
            return;
    }
    snprintf(name, sizeof name, "%s/rank-%05d.txt", in, rank);
    if (strcmp(name, path) != 0 && is_still_ours() && rename(path, name) == 0)
        memcpy(path, name, sizeof path);
    if (rank == 0)
        remove_texts_from(in, size);
}

/* Lines that would lie on two pages begin a new one, behind a line of blanks, which readers pass over: so a killed process
 * leaves whole lines. Only what is longer than a page may be cut. */
static void fill_page(struct lines *lines)
{
    size_t rest = PAGE - length % PAGE, n = lines->end - lines->start;
    if (n <= rest || n > PAGE)
        return;
    lines->start -= rest;
    memset(lines->bytes + lines->start, ' ', rest - 1);
    lines->bytes[lines->start + rest - 1] = '\n';
}

void output_write(struct lines *lines)
{
    fill_page(lines);
    while (lines->start < lines->end && output_is_open()) {
        ssize_t n = write(descriptor, lines->bytes + lines->start, lines->end - lines->start);
        if (n > 0) {
            lines->start += n;
            length += n;
        } else if (n < 0 && errno != EINTR)
            fails("write", path);
    }
}
