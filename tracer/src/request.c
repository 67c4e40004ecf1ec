/* request.c: requests and statuses. */
#include "request.h"
#include "give.h"
#include "output.h"
#include "thread.h"

#include <stdlib.h>
#include <string.h>

/* ---- requests -------------------------------------------------------------------------------------------------- */

struct handle *put_request(MPI_Request *request)
{
    struct handle *h = request_at(*request, request, new_list());
    put_handle("MPI_Request", "request", h);
    return h;
}

void put_named_request(MPI_Request request)
{
    put_handle("MPI_Request", "request", handle_of(REQUESTS, KEY(request)));
}

static int put_request_list(int n, struct handle **handles, const char *comma)
{
    size_t line = begin_line();
    put("MPI_Request requests=[");
    put_number(n);
    put("] {");
    for (int i = 0; i < n; i++) {
        if (i)
            put(comma);
        put_number(handles[i]->number);
        if (handles[i]->name)
            put_note(handles[i]->name);
    }
    put("}");
    return end_line(line);
}

/* Room for so many handles; NULL where memory is refused, and then the text has ended. */
static struct handle **room_for_handles(int n)
{
    struct thread *thread = this_thread();
    if (n > thread->handles_room || !thread->handles) {
        struct handle **room = realloc(thread->handles, (n + 64) * sizeof *room);
        if (!room) {
            output_ends("no memory for a list of requests");
            return NULL;
        }
        thread->handles = room;
        thread->handles_room = n + 64;
    }
    return thread->handles;
}

struct handle **put_requests(int n, MPI_Request *requests)
{
    struct handle **handles = room_for_handles(n);
    unsigned long list = new_list();
    if (!handles)
        return NULL;
    for (int i = 0; i < n; i++)
        handles[i] = request_at(requests[i], &requests[i], list);
    put_int("count", n);
    /* The longest line that is read has room for some 10,000 requests. */
    if (!put_request_list(n, handles, ", ") && !put_request_list(n, handles, ","))
        put_int("requests_left_out", n);
    return handles;
}

struct handle *give_request(int code, MPI_Request *request)
{
    /* What a wrapper notes of the request of a call that failed is noted here, for nobody. */
    static __thread struct handle none;
    MPI_Request made = code == MPI_SUCCESS ? *request : MPI_REQUEST_NULL;
    struct handle *h = made == MPI_REQUEST_NULL ? handle_of(REQUESTS, KEY(made)) : request_given(made, request);
    put_handle("MPI_Request", "request", h);        /* a reader wants one even where the call failed */
    return h->name ? &none : h;
}

void completed(struct handle *handle, const MPI_Request *request)
{
    if (handle->name || handle->persistent || *request != MPI_REQUEST_NULL)
        return;
    if (handle->makes)
        give_comm("newcomm", MPI_SUCCESS, handle->makes);
    handle_freed(REQUESTS, handle);
}

/* ---- statuses -------------------------------------------------------------------------------------------------- */

MPI_Status *real_statuses(int n, MPI_Status *statuses)
{
    struct thread *thread = this_thread();
    if (statuses != MPI_STATUSES_IGNORE && statuses != MPI_STATUS_IGNORE)
        return statuses;
    if (n > thread->statuses_room || !thread->statuses) {
        MPI_Status *room = realloc(thread->statuses, (n + 64) * sizeof *room);
        if (!room) {
            output_ends("no memory for statuses");
            return statuses;
        }
        thread->statuses = room;
        thread->statuses_room = n + 64;
    }
    if (n > 0)
        memset(thread->statuses, 0, n * sizeof *thread->statuses);
    return thread->statuses;
}

MPI_Status *real_status(MPI_Status *status)
{
    return real_statuses(1, status);
}

static void put_source(const MPI_Status *status)
{
    put("source=");
    if (status->MPI_SOURCE == MPI_PROC_NULL)
        put("-2 (MPI_PROC_NULL)");
    else if (status->MPI_SOURCE == MPI_ANY_SOURCE)
        put("-1 (MPI_ANY_SOURCE)");
    else
        put_number(status->MPI_SOURCE);
}

static void put_bytes_received(const MPI_Status *status)
{
    int bytes = 0;
    if (PMPI_Get_count(status, MPI_BYTE, &bytes) != MPI_SUCCESS || bytes < 0)
        return;
    put("bytes=");
    put_number(bytes);
    put(", ");
}

static void put_tag_received(const MPI_Status *status)
{
    put(", tag=");
    if (status->MPI_TAG == MPI_ANY_TAG)
        put("-1 (MPI_ANY_TAG)");
    else
        put_number(status->MPI_TAG);
}

/* Only what MPI defines: the status of a send has no source. Whether it was cancelled is asked of requests alone, since
 * MPICH sets nothing for it in the status of a probe. */
static void put_fields(int receives, int of_request, const MPI_Status *status, int shortly)
{
    int cancelled = 0;
    if (of_request)
        PMPI_Test_cancelled(status, &cancelled);
    put("{");
    if (cancelled || !receives) {
        put("cancelled=");
        put_number(cancelled);
    } else if (shortly)
        put_source(status);
    else {
        put_bytes_received(status);
        put_source(status);
        put_tag_received(status);
    }
    put("}");
}

static void put_one_status(int receives, int of_request, const MPI_Status *status)
{
    put("MPI_Status status=[1] {");
    put_fields(receives, of_request, status, 0);
    put("}\n");
}

void put_received(const MPI_Status *status)
{
    put_one_status(1, 0, status);
}

void put_status(const struct handle *handle, const MPI_Status *status)
{
    put_one_status(handle->receives, 1, status);
}

static int put_status_list(int n, struct handle **handles, const int *indices, const MPI_Status *statuses, int shortly)
{
    size_t line = begin_line();
    put("MPI_Status statuses=[");
    put_number(n);
    put("] {");
    for (int i = 0; i < n; i++) {
        if (i)
            put(", ");
        put_fields(handles[indices ? indices[i] : i]->receives, 1, &statuses[i], shortly);
    }
    put("}");
    return end_line(line);
}

void put_statuses(int n, struct handle **handles, const int *indices, const MPI_Status *statuses)
{
    if (!put_status_list(n, handles, indices, statuses, 0) && !put_status_list(n, handles, indices, statuses, 1))
        put_int("statuses_left_out", n);
}
