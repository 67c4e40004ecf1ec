/* give.h: the handles that a call gives, and what is asked about communicators. */
#ifndef MPIMATCH_GIVE_H
#define MPIMATCH_GIVE_H

#include "handle.h"

/* Each puts the handle where the call was successful, under this name; code is what the call answered. */
struct handle *give_comm(const char *name, int code, const MPI_Comm *comm);
void give_group(const char *name, int code, const MPI_Group *group);
void give_window(const char *name, int code, const MPI_Win *window);
/* A file may be opened on some ranks and not on others: then it is the null handle. */
void give_file(const char *name, int code, const MPI_File *file);
void give_datatype(const char *name, int code, const MPI_Datatype *datatype);
void give_operation(const char *name, int code, const MPI_Op *op);
void give_message(const char *name, const MPI_Message *message);

void put_operation(const char *name, MPI_Op op);

/* How many counts a list has in a collective call on this communicator, one for each rank; -1 where that isn't known, and
 * for an intercommunicator, whose lists say nothing of its own group. */
int counts_of(MPI_Comm comm);
/* The same at the root, and -1 on all other ranks, where the list may be anything. */
int counts_at_root(MPI_Comm comm, int root);

/* The dimensions of a Cartesian communicator, 0 of any other. MPI_Cart_sub doesn't say how many there are, and asking MPI
 * could fail where the program's own call would. */
int dims_of(MPI_Comm comm);
void keep_dims(struct handle *comm, int dims);

#endif
