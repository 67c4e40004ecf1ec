/* give.c: the handles that a call gives, and what is asked about communicators. */
#include "give.h"
#include "call.h"

struct handle *give_comm(const char *name, int code, const MPI_Comm *comm)
{
    if (code != MPI_SUCCESS)
        return NULL;
    struct handle *h = handle_given(COMMUNICATORS, KEY(*comm));
    h->size = h->dims = 0;
    put_handle("MPI_Comm", name, h);
    return h;
}

void give_group(const char *name, int code, const MPI_Group *group)
{
    if (code == MPI_SUCCESS)
        put_handle("MPI_Group", name, handle_given(GROUPS, KEY(*group)));
}

void give_window(const char *name, int code, const MPI_Win *window)
{
    if (code == MPI_SUCCESS)
        put_handle("MPI_Win", name, handle_given(WINDOWS, KEY(*window)));
}

void give_file(const char *name, int code, const MPI_File *file)
{
    put_handle("MPI_File", name, handle_given(FILES, KEY(code == MPI_SUCCESS ? *file : MPI_FILE_NULL)));
}

void give_datatype(const char *name, int code, const MPI_Datatype *datatype)
{
    if (code == MPI_SUCCESS)
        put_handle("MPI_Datatype", name, handle_given(DATATYPES, KEY(*datatype)));
}

void give_operation(const char *name, int code, const MPI_Op *op)
{
    if (code != MPI_SUCCESS)
        return;
    handle_given(OPERATIONS, KEY(*op));
    put_operation(name, *op);
}

void give_message(const char *name, const MPI_Message *message)
{
    put_handle("MPI_Message", name, handle_given(MESSAGES, KEY(*message)));
}

void put_operation(const char *name, MPI_Op op)
{
    const struct handle *h = handle_of(OPERATIONS, KEY(op));
    put("MPI_Op ");
    put(name);
    put("=");
    put_number(h->number);
    put_note(h->name ? h->name : "user-defined-op");
    put("\n");
}

/* ---- communicators --------------------------------------------------------------------------------------------- */

/* Asking MPI could fail where the program's own call would: only a communicator that MPI has given is asked for. */
static const struct handle *measured(MPI_Comm comm)
{
    struct handle *h = handle_known(COMMUNICATORS, KEY(comm));
    int begun = 0, ended = 1, inter = 0, size = -1;
    if (!h || !h->given || comm == MPI_COMM_NULL)
        return NULL;
    if (h->size)
        return h;
    NEXT(MPI_Initialized)(&begun);
    NEXT(MPI_Finalized)(&ended);
    if (!begun || ended)
        return NULL;
    NEXT(MPI_Comm_test_inter)(comm, &inter);
    NEXT(MPI_Comm_rank)(comm, &h->rank);
    if (!inter)
        NEXT(MPI_Comm_size)(comm, &size);
    h->size = size;
    return h;
}

int counts_of(MPI_Comm comm)
{
    const struct handle *h = measured(comm);
    return h ? h->size : -1;
}

int counts_at_root(MPI_Comm comm, int root)
{
    const struct handle *h = measured(comm);
    return h && h->rank == root ? h->size : -1;
}

int dims_of(MPI_Comm comm)
{
    const struct handle *h = handle_known(COMMUNICATORS, KEY(comm));
    return h ? h->dims : 0;
}

void keep_dims(struct handle *comm, int dims)
{
    if (comm && !comm->name)
        comm->dims = dims;
}
