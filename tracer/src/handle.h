/* handle.h: the numbers that stand for handles in a text.
 *
 * Each process numbers its handles of each sort by itself: a new one gets the smallest free number. A number is free again
 * once its handle is freed; a request's, once the request is complete. No function of MPI is called here, so all of it may
 * be used before MPI_Init and after MPI_Finalize.
 */
#ifndef MPIMATCH_HANDLE_H
#define MPIMATCH_HANDLE_H

#include "line.h"

enum sort { COMMUNICATORS, GROUPS, WINDOWS, FILES, DATATYPES, OPERATIONS, REQUESTS, MESSAGES, SESSIONS, SORTS };

struct handle {
    struct handle *next;        /* in its bucket */
    uintptr_t key;              /* what MPI gave */
    int number;
    int uses;                   /* groups: how often MPI gave it, which is how often it is freed */
    const char *name;           /* of what the standard names, else NULL */
    int given;                  /* MPI gave it, or the standard names it: it is the handle of something */

    /* of requests */
    const void *at;             /* where the program keeps it */
    unsigned long listed;       /* the last list in which it was found */
    int receives;               /* its status has a source */
    int persistent;             /* it outlives its completion */
    MPI_Comm *makes;            /* of MPI_Comm_idup: where the communicator will be */

    /* of communicators */
    int dims;                   /* dimensions of a Cartesian one */
    int size, rank;             /* once MPI was asked: size is -1 for an intercommunicator; 0: not asked */
};

/* A handle of MPI as a key: an int or a pointer. */
#define KEY(handle) ((uintptr_t)(handle))

/* Numbers what the standard names (constants.c). */
void name_constants(void);
void name_constant(enum sort sort, uintptr_t key, int number, const char *name);
/* Of this sort the numbers of what MPI gives begin here. */
void number_from(enum sort sort, int first);

/* The entry of a handle; one that was never seen gets a number. */
struct handle *handle_of(enum sort sort, uintptr_t key);
/* The same; NULL where it was never seen. */
struct handle *handle_known(enum sort sort, uintptr_t key);
/* Of a handle that MPI has just given. */
struct handle *handle_given(enum sort sort, uintptr_t key);
/* Its number is free again, once it was freed as often as it was given. */
void handle_freed(enum sort sort, struct handle *handle);

/* A request that MPI has just given, to be kept here. */
struct handle *request_given(MPI_Request request, const void *at);
/* MPI may give one handle for several requests (all that are complete at once, say). Of those this is the one that is kept
 * here, else the oldest, but none that was found in this list before. */
struct handle *request_at(MPI_Request request, const void *at, unsigned long list);
unsigned long new_list(void);

void put_handle(const char *type, const char *name, const struct handle *handle);

#endif
