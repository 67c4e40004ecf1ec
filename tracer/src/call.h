/* call.h: a call of the program, from its entry to its return.
 *
 * Every wrapper goes through the same steps:
 *
 *     if (enters("MPI_X", SITE)) { put_..(..); entered(); }
 *     int code = NEXT(MPI_X)(..);
 *     if (returns(code)) { put_..(..); returned(); }
 *
 * What is put between enters and entered is in the file before MPI_X is called, what is put between returns and returned
 * after it. Each of both is one write(2), so a process that is killed loses nothing, and the call in which it hangs is
 * the last of its text.
 */
#ifndef MPIMATCH_CALL_H
#define MPIMATCH_CALL_H

#include "line.h"

/* Where the program called: the return address of the wrapper. */
#define SITE __builtin_return_address(0)

/* True where the call is the program's own and is told: not one that MPI makes within a call, nor one of a forked child. */
int enters(const char *function, const void *site);
void entered(void);
/* The entry of a poll, which may be left out together with its return (poll.h). */
void entered_poll(void);

/* True where the call is told; code is what MPI answered. */
int returns(int code);
void returned(void);
/* found: the poll has changed something, so it must be told. */
void returned_poll(int found);

/* The function of the MPI library behind a wrapper. It isn't called as PMPI_X by name, since that is a wrapper too: the
 * Fortran bindings of Open MPI call PMPI_X where a program calls mpi_x. */
#define NEXT(name)                                                                                          \
    (*__extension__({                                                                                       \
        static __typeof__(&name) next_;                                                                     \
        if (!next_)                                                                                         \
            next_ = (__typeof__(&name))next_function("P" #name);                                            \
        next_;                                                                                              \
    }))
void *next_function(const char *name);

#endif
