/* complete.c: the completion of requests, and what else is done to them.
 *
 * A request may be gone even where the call answers an error (a message was truncated, say); its handle shows that.
 */
#include "wrap.h"

/* ---- one request ----------------------------------------------------------------------------------------------- */

WRAP_WITH(struct handle *h = NULL;, MPI_Wait, (MPI_Request *request, MPI_Status *status), (request, status),
          h = put_request(request); STATUS,
          if (code == MPI_SUCCESS)
              put_status(h, status);
          completed(h, request);)

int MPI_Test(MPI_Request *request, int *flag, MPI_Status *status)
{
    struct handle *h = NULL;
    if (enters("MPI_Test", SITE)) {
        h = put_request(request);
        entered_poll();
        STATUS
    }
    int code = NEXT(MPI_Test)(request, flag, status);
    if (returns(code)) {
        int done = code == MPI_SUCCESS ? *flag : *request == MPI_REQUEST_NULL;
        int found = done && !h->name;       /* a Test of no request changes nothing */
        put_int("flag", done);
        if (done && code == MPI_SUCCESS)
            put_status(h, status);
        if (done)
            completed(h, request);
        returned_poll(found);
    }
    return code;
}
ALIAS(MPI_Test, (MPI_Request *request, int *flag, MPI_Status *status))

/* It says whether a request is complete and leaves it as it is. */
WRAP_POLL(MPI_Request_get_status, (MPI_Request request, int *flag, MPI_Status *status), (request, flag, status),
          put_named_request(request);, *flag, put_int("flag", found);)

/* ---- all of some requests -------------------------------------------------------------------------------------- */

/* True where any of them was a request. */
static int all_completed(int n, struct handle **handles, const MPI_Request *requests)
{
    int some = 0;
    for (int i = 0; i < n; i++) {
        some |= !handles[i]->name;
        completed(handles[i], &requests[i]);
    }
    return some;
}

WRAP_WITH(struct handle **handles = NULL;, MPI_Waitall, (int count, MPI_Request *requests, MPI_Status *statuses),
          (count, requests, statuses),
          handles = put_requests(count, requests); statuses = real_statuses(count, statuses);,
          if (code == MPI_SUCCESS)
              put_statuses(count, handles, NULL, statuses);
          all_completed(count, handles, requests);)

int MPI_Testall(int count, MPI_Request *requests, int *flag, MPI_Status *statuses)
{
    struct handle **handles = NULL;
    if (enters("MPI_Testall", SITE)) {
        handles = put_requests(count, requests);
        entered_poll();
        statuses = real_statuses(count, statuses);
    }
    int code = NEXT(MPI_Testall)(count, requests, flag, statuses);
    if (returns(code)) {
        int done = code == MPI_SUCCESS && *flag, found = 0;
        put_int("flag", done);
        if (done) {
            put_statuses(count, handles, NULL, statuses);
            found = all_completed(count, handles, requests);
        }
        returned_poll(found);
    }
    return code;
}
ALIAS(MPI_Testall, (int count, MPI_Request *requests, int *flag, MPI_Status *statuses))

/* ---- one of some requests -------------------------------------------------------------------------------------- */

/* Which one is complete, and its status; true where there is one. */
static int put_any(int code, int count, struct handle **handles, const MPI_Request *requests, int index, const MPI_Status *status)
{
    int one = index != MPI_UNDEFINED && index >= 0 && index < count;
    put_int("index", one ? index : -1);
    if (!one)
        return 0;
    if (code == MPI_SUCCESS)
        put_status(handles[index], status);
    completed(handles[index], &requests[index]);
    return 1;
}

WRAP_WITH(struct handle **handles = NULL;, MPI_Waitany, (int count, MPI_Request *requests, int *index, MPI_Status *status),
          (count, requests, index, status),
          handles = put_requests(count, requests); STATUS,
          put_any(code, count, handles, requests, *index, status);)

int MPI_Testany(int count, MPI_Request *requests, int *index, int *flag, MPI_Status *status)
{
    struct handle **handles = NULL;
    if (enters("MPI_Testany", SITE)) {
        handles = put_requests(count, requests);
        entered_poll();
        STATUS
    }
    int code = NEXT(MPI_Testany)(count, requests, index, flag, status);
    if (returns(code)) {
        int done = code == MPI_SUCCESS && *flag, found = 0;
        put_int("flag", done);
        if (done)
            found = put_any(code, count, handles, requests, *index, status);
        returned_poll(found);
    }
    return code;
}
ALIAS(MPI_Testany, (int count, MPI_Request *requests, int *index, int *flag, MPI_Status *status))

/* ---- some of some requests ------------------------------------------------------------------------------------- */

/* Those that are complete, each with its status. */
static void put_some(int outcount, const int *indices, struct handle **handles, const MPI_Request *requests,
                     const MPI_Status *statuses)
{
    if (outcount == MPI_UNDEFINED)
        outcount = 0;
    put_int("outcount", outcount);
    put_list("indices", outcount, indices);
    put_statuses(outcount, handles, indices, statuses);
    for (int i = 0; i < outcount; i++)
        completed(handles[indices[i]], &requests[indices[i]]);
}

WRAP_WITH(struct handle **handles = NULL;, MPI_Waitsome,
          (int incount, MPI_Request *requests, int *outcount, int *indices, MPI_Status *statuses),
          (incount, requests, outcount, indices, statuses),
          handles = put_requests(incount, requests); statuses = real_statuses(incount, statuses);,
          if (code == MPI_SUCCESS)
              put_some(*outcount, indices, handles, requests, statuses);
          else
              all_completed(incount, handles, requests);)

int MPI_Testsome(int incount, MPI_Request *requests, int *outcount, int *indices, MPI_Status *statuses)
{
    struct handle **handles = NULL;
    if (enters("MPI_Testsome", SITE)) {
        handles = put_requests(incount, requests);
        entered_poll();
        statuses = real_statuses(incount, statuses);
    }
    int code = NEXT(MPI_Testsome)(incount, requests, outcount, indices, statuses);
    if (returns(code)) {
        int found = 1;
        if (code == MPI_SUCCESS) {
            found = *outcount != 0 && *outcount != MPI_UNDEFINED;
            put_some(*outcount, indices, handles, requests, statuses);
        } else
            all_completed(incount, handles, requests);
        returned_poll(found);
    }
    return code;
}
ALIAS(MPI_Testsome, (int incount, MPI_Request *requests, int *outcount, int *indices, MPI_Status *statuses))

/* ---- started, cancelled, freed --------------------------------------------------------------------------------- */

WRAP(MPI_Start, (MPI_Request *request), (request), put_request(request);, )
WRAP(MPI_Startall, (int count, MPI_Request *requests), (count, requests), put_requests(count, requests);, )
WRAP(MPI_Cancel, (MPI_Request *request), (request), put_request(request);, )
WRAP_WITH(struct handle *h = NULL;, MPI_Request_free, (MPI_Request *request), (request),
          h = put_request(request);,
          if (code == MPI_SUCCESS)
              handle_freed(REQUESTS, h);)

/* ---- requests of the program's own ----------------------------------------------------------------------------- */

WRAP(MPI_Grequest_start,
     (MPI_Grequest_query_function *query_fn, MPI_Grequest_free_function *free_fn, MPI_Grequest_cancel_function *cancel_fn,
      void *extra_state, MPI_Request *request),
     (query_fn, free_fn, cancel_fn, extra_state, request), , GIVES_REQUEST)
WRAP(MPI_Grequest_complete, (MPI_Request request), (request), put_named_request(request);, )
