/* point.c: messages from one process to another. */
#include "wrap.h"

#define ENVELOPE(peer) INT(count) TYPE(datatype) RANK(peer) TAG(tag) COMM(comm)

/* ---- sends ----------------------------------------------------------------------------------------------------- */

#define SEND_PARAMETERS(count_t) const void *buf, count_t count, MPI_Datatype datatype, int dest, int tag, MPI_Comm comm
#define SEND_ARGUMENTS buf, count, datatype, dest, tag, comm

/* In one mode: blocking, nonblocking, persistent. */
#define SENDS(blocking, starting, persistent, count_t)                                                      \
    WRAP(blocking, (SEND_PARAMETERS(count_t)), (SEND_ARGUMENTS), ENVELOPE(dest), )                          \
    WRAP(starting, (SEND_PARAMETERS(count_t), MPI_Request *request), (SEND_ARGUMENTS, request),             \
         ENVELOPE(dest), GIVES_REQUEST)                                                                     \
    WRAP(persistent, (SEND_PARAMETERS(count_t), MPI_Request *request), (SEND_ARGUMENTS, request),           \
         ENVELOPE(dest), GIVES_PERSISTENT)

#define STANDARD_SENDS(c, count_t, _) SENDS(MPI_Send##c, MPI_Isend##c, MPI_Send_init##c, count_t)
#define SYNCHRONOUS_SENDS(c, count_t, _) SENDS(MPI_Ssend##c, MPI_Issend##c, MPI_Ssend_init##c, count_t)
#define BUFFERED_SENDS(c, count_t, _) SENDS(MPI_Bsend##c, MPI_Ibsend##c, MPI_Bsend_init##c, count_t)
#define READY_SENDS(c, count_t, _) SENDS(MPI_Rsend##c, MPI_Irsend##c, MPI_Rsend_init##c, count_t)
WITH_LARGE_COUNTS(STANDARD_SENDS)
WITH_LARGE_COUNTS(SYNCHRONOUS_SENDS)
WITH_LARGE_COUNTS(BUFFERED_SENDS)
WITH_LARGE_COUNTS(READY_SENDS)

/* ---- receives -------------------------------------------------------------------------------------------------- */

#define RECV_PARAMETERS(count_t) void *buf, count_t count, MPI_Datatype datatype, int source, int tag, MPI_Comm comm
#define RECV_ARGUMENTS buf, count, datatype, source, tag, comm
#define GIVES_PERSISTENT_RECEIVE                                                                            \
    struct handle *h = give_request(code, request);                                                         \
    h->persistent = h->receives = 1;

#define RECEIVES(c, count_t, _)                                                                             \
    WRAP(MPI_Recv##c, (RECV_PARAMETERS(count_t), MPI_Status *status), (RECV_ARGUMENTS, status),             \
         ENVELOPE(source) STATUS, GIVES_RECEIVED)                                                           \
    WRAP(MPI_Irecv##c, (RECV_PARAMETERS(count_t), MPI_Request *request), (RECV_ARGUMENTS, request),         \
         ENVELOPE(source), GIVES_RECEIVE)                                                                   \
    WRAP(MPI_Recv_init##c, (RECV_PARAMETERS(count_t), MPI_Request *request), (RECV_ARGUMENTS, request),     \
         ENVELOPE(source), GIVES_PERSISTENT_RECEIVE)
WITH_LARGE_COUNTS(RECEIVES)

/* ---- both at once ---------------------------------------------------------------------------------------------- */

#define SENDRECV_PARAMETERS(count_t)                                                                        \
    const void *sendbuf, count_t sendcount, MPI_Datatype sendtype, int dest, int sendtag,                   \
    void *recvbuf, count_t recvcount, MPI_Datatype recvtype, int source, int recvtag, MPI_Comm comm
#define SENDRECV_ARGUMENTS                                                                                  \
    sendbuf, sendcount, sendtype, dest, sendtag, recvbuf, recvcount, recvtype, source, recvtag, comm
#define SENDRECV_ENTRY                                                                                      \
    INT(sendcount) TYPE(sendtype) RANK(dest) TAG(sendtag)                                                   \
    INT(recvcount) TYPE(recvtype) RANK(source) TAG(recvtag) COMM(comm)

#define REPLACE_PARAMETERS(count_t)                                                                         \
    void *buf, count_t count, MPI_Datatype datatype, int dest, int sendtag, int source, int recvtag, MPI_Comm comm
#define REPLACE_ARGUMENTS buf, count, datatype, dest, sendtag, source, recvtag, comm
#define REPLACE_ENTRY INT(count) TYPE(datatype) RANK(dest) TAG(sendtag) RANK(source) TAG(recvtag) COMM(comm)

#define SENDRECVS(c, count_t, _)                                                                            \
    WRAP(MPI_Sendrecv##c, (SENDRECV_PARAMETERS(count_t), MPI_Status *status), (SENDRECV_ARGUMENTS, status), \
         SENDRECV_ENTRY STATUS, GIVES_RECEIVED)                                                             \
    WRAP(MPI_Sendrecv_replace##c, (REPLACE_PARAMETERS(count_t), MPI_Status *status), (REPLACE_ARGUMENTS, status), \
         REPLACE_ENTRY STATUS, GIVES_RECEIVED)
WITH_LARGE_COUNTS(SENDRECVS)

#if HAVE_4_0
#define ISENDRECVS(c, count_t, _)                                                                           \
    WRAP(MPI_Isendrecv##c, (SENDRECV_PARAMETERS(count_t), MPI_Request *request), (SENDRECV_ARGUMENTS, request), \
         SENDRECV_ENTRY, GIVES_RECEIVE)                                                                     \
    WRAP(MPI_Isendrecv_replace##c, (REPLACE_PARAMETERS(count_t), MPI_Request *request), (REPLACE_ARGUMENTS, request), \
         REPLACE_ENTRY, GIVES_RECEIVE)
WITH_LARGE_COUNTS(ISENDRECVS)
#endif

/* ---- probes ---------------------------------------------------------------------------------------------------- */

#define PROBED RANK(source) TAG(tag) COMM(comm) STATUS

WRAP(MPI_Probe, (int source, int tag, MPI_Comm comm, MPI_Status *status), (source, tag, comm, status),
     PROBED, GIVES_RECEIVED)
WRAP_POLL(MPI_Iprobe, (int source, int tag, MPI_Comm comm, int *flag, MPI_Status *status), (source, tag, comm, flag, status),
          PROBED, *flag,
          put_int("flag", found);
          if (found)
              put_received(status);)

WRAP(MPI_Mprobe, (int source, int tag, MPI_Comm comm, MPI_Message *message, MPI_Status *status),
     (source, tag, comm, message, status), PROBED,
     if (code == MPI_SUCCESS)
         give_message("message", message);
     GIVES_RECEIVED)
WRAP_POLL(MPI_Improbe, (int source, int tag, MPI_Comm comm, int *flag, MPI_Message *message, MPI_Status *status),
          (source, tag, comm, flag, message, status), PROBED, *flag,
          put_int("flag", found);
          if (found) {
              give_message("message", message);
              put_received(status);
          })

#define FETCH_ENTRY                                                                                         \
    INT(count) TYPE(datatype)                                                                               \
    m = handle_of(MESSAGES, KEY(*message));                                                                  \
    put_handle("MPI_Message", "message", m);

#define FETCHES(c, count_t, _)                                                                              \
    WRAP_WITH(struct handle *m = NULL;, MPI_Mrecv##c,                                                               \
              (void *buf, count_t count, MPI_Datatype datatype, MPI_Message *message, MPI_Status *status),  \
              (buf, count, datatype, message, status),                                                      \
              FETCH_ENTRY STATUS, GIVES_RECEIVED handle_freed(MESSAGES, m);)                                 \
    WRAP_WITH(struct handle *m = NULL;, MPI_Imrecv##c,                                                              \
              (void *buf, count_t count, MPI_Datatype datatype, MPI_Message *message, MPI_Request *request), \
              (buf, count, datatype, message, request),                                                     \
              FETCH_ENTRY, GIVES_RECEIVE handle_freed(MESSAGES, m);)
WITH_LARGE_COUNTS(FETCHES)

/* ---- buffers --------------------------------------------------------------------------------------------------- */

/* A detach waits until the buffered messages are gone. */
#define BUFFERS(c, count_t, _)                                                                              \
    WRAP(MPI_Buffer_attach##c, (void *buffer, count_t size), (buffer, size), INT(size), )                   \
    WRAP(MPI_Buffer_detach##c, (void *buffer_addr, count_t *size), (buffer_addr, size), , GIVES_INT(size))
WITH_LARGE_COUNTS(BUFFERS)

/* ---- partitioned messages -------------------------------------------------------------------------------------- */

#if HAVE_4_0
WRAP(MPI_Psend_init,
     (const void *buf, int partitions, MPI_Count count, MPI_Datatype datatype, int dest, int tag, MPI_Comm comm,
      MPI_Info info, MPI_Request *request),
     (buf, partitions, count, datatype, dest, tag, comm, info, request),
     INT(partitions) ENVELOPE(dest), GIVES_PERSISTENT)
WRAP(MPI_Precv_init,
     (void *buf, int partitions, MPI_Count count, MPI_Datatype datatype, int source, int tag, MPI_Comm comm,
      MPI_Info info, MPI_Request *request),
     (buf, partitions, count, datatype, source, tag, comm, info, request),
     INT(partitions) ENVELOPE(source), GIVES_PERSISTENT)

WRAP(MPI_Pready, (int partition, MPI_Request request), (partition, request), INT(partition) put_named_request(request);, )
WRAP(MPI_Pready_range, (int partition_low, int partition_high, MPI_Request request),
     (partition_low, partition_high, request), INT(partition_low) INT(partition_high) put_named_request(request);, )
/* MPICH before 4.1 leaves out this const of the standard. */
#if defined(MPICH_NUMVERSION) && MPICH_NUMVERSION < 40100000
#define PARTITIONS int *
#else
#define PARTITIONS const int *
#endif
WRAP(MPI_Pready_list, (int length, PARTITIONS array_of_partitions, MPI_Request request),
     (length, array_of_partitions, request), INT(length) put_named_request(request);, )
WRAP_POLL(MPI_Parrived, (MPI_Request request, int partition, int *flag), (request, partition, flag),
          put_named_request(request); INT(partition), *flag, put_int("flag", found);)
#endif
