/* request.h: requests and statuses. */
#ifndef MPIMATCH_REQUEST_H
#define MPIMATCH_REQUEST_H

#include "handle.h"

/* The requests of a call that completes them, frees them or starts them; their entries. */
struct handle *put_request(MPI_Request *request);
struct handle **put_requests(int n, MPI_Request *requests);
/* One that a call only names. */
void put_named_request(MPI_Request request);

/* The request that a call has made; code is what the call answered. Never NULL. */
struct handle *give_request(int code, MPI_Request *request);
/* A call may have completed this request: where it is gone, its number is free. */
void completed(struct handle *handle, const MPI_Request *request);

/* The program's statuses, or some of the tracer's where the program ignores them: only a status tells from whom a receive
 * of any source got its message. */
MPI_Status *real_status(MPI_Status *status);
MPI_Status *real_statuses(int n, MPI_Status *statuses);

/* The status of a receive or a probe. */
void put_received(const MPI_Status *status);
/* That of a request. */
void put_status(const struct handle *handle, const MPI_Status *status);
/* Those of all requests in a list, or of the ones at these places in it. */
void put_statuses(int n, struct handle **handles, const int *indices, const MPI_Status *statuses);

#endif
