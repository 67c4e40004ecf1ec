/* thread.h: what is kept for each thread that calls MPI. */
#ifndef MPIMATCH_THREAD_H
#define MPIMATCH_THREAD_H

#include "line.h"
#include "poll.h"

struct handle;

struct thread {
    struct lines lines;         /* of the call in which it is */
    int depth;                  /* calls in which it is; above 1 they are MPI's own */
    int told;                   /* the outermost one is told */
    int held_back;              /* it is a poll whose entry isn't written yet */
    int number;                 /* 0 for the thread that began MPI; -1 before its first call */
    const char *function;
    const void *site;
    struct polls polls;

    /* Arrays for the wrappers, good until the next call. */
    MPI_Status *statuses;
    int statuses_room;
    struct handle **handles;
    int handles_room;
};

/* NULL where memory is refused, which can only be at the thread's first call. */
struct thread *this_thread(void);
/* Whether more than one thread has called MPI. */
int several_threads(void);
/* Gives the thread its number. */
void number_thread(struct thread *thread);

#endif
