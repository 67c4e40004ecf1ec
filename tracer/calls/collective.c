/* collective.c: collective calls on communicators.
 *
 * The counts of both sides are told, and lists of counts where they have one for each rank of the group.
 */
#include "wrap.h"

/* Each of them is there blocking, nonblocking and (from MPI 4.0 on) persistent, with the same parameters in front. */
#define BLOCKING_AND_NONBLOCKING(name, iname, c, parameters, arguments, entry)                              \
    WRAP(MPI_##name##c, (OPENED parameters), (OPENED arguments), entry, )                                   \
    WRAP(MPI_I##iname##c, (OPENED parameters, MPI_Request *request), (OPENED arguments, request), entry, GIVES_REQUEST)
#if HAVE_4_0
#define COLLECTIVE(name, iname, c, parameters, arguments, entry)                                            \
    BLOCKING_AND_NONBLOCKING(name, iname, c, parameters, arguments, entry)                                  \
    WRAP(MPI_##name##_init##c, (OPENED parameters, MPI_Info info, MPI_Request *request),                    \
         (OPENED arguments, info, request), entry, GIVES_PERSISTENT)
#else
#define COLLECTIVE BLOCKING_AND_NONBLOCKING
#endif

COLLECTIVE(Barrier, barrier, , (MPI_Comm comm), (comm), COMM(comm))

/* ---- from the root, or to it ------------------------------------------------------------------------------------ */

#define BCAST(c, count_t, _)                                                                                \
    COLLECTIVE(Bcast, bcast, c, (void *buffer, count_t count, MPI_Datatype datatype, int root, MPI_Comm comm), \
               (buffer, count, datatype, root, comm), INT(count) TYPE(datatype) RANK(root) COMM(comm))
WITH_LARGE_COUNTS(BCAST)

#define REDUCE(c, count_t, _)                                                                               \
    COLLECTIVE(Reduce, reduce, c,                                                                           \
               (const void *sendbuf, void *recvbuf, count_t count, MPI_Datatype datatype, MPI_Op op, int root, MPI_Comm comm), \
               (sendbuf, recvbuf, count, datatype, op, root, comm),                                         \
               INT(count) TYPE(datatype) OP(op) RANK(root) COMM(comm))
WITH_LARGE_COUNTS(REDUCE)

#define ROOTED_PARAMETERS(count_t)                                                                          \
    (const void *sendbuf, count_t sendcount, MPI_Datatype sendtype, void *recvbuf, count_t recvcount,       \
     MPI_Datatype recvtype, int root, MPI_Comm comm)
#define ROOTED_ARGUMENTS (sendbuf, sendcount, sendtype, recvbuf, recvcount, recvtype, root, comm)
#define ROOTED_ENTRY INT(sendcount) TYPE(sendtype) INT(recvcount) TYPE(recvtype) RANK(root) COMM(comm)

#define GATHER_AND_SCATTER(c, count_t, _)                                                                   \
    COLLECTIVE(Gather, gather, c, ROOTED_PARAMETERS(count_t), ROOTED_ARGUMENTS, ROOTED_ENTRY)               \
    COLLECTIVE(Scatter, scatter, c, ROOTED_PARAMETERS(count_t), ROOTED_ARGUMENTS, ROOTED_ENTRY)
WITH_LARGE_COUNTS(GATHER_AND_SCATTER)

#define GATHERV(c, count_t, displ_t)                                                                        \
    COLLECTIVE(Gatherv, gatherv, c,                                                                         \
               (const void *sendbuf, count_t sendcount, MPI_Datatype sendtype, void *recvbuf, const count_t recvcounts[], \
                const displ_t displs[], MPI_Datatype recvtype, int root, MPI_Comm comm),                    \
               (sendbuf, sendcount, sendtype, recvbuf, recvcounts, displs, recvtype, root, comm),           \
               INT(sendcount) TYPE(sendtype) COUNTS_AT_ROOT(recvcounts) TYPE(recvtype) RANK(root) COMM(comm))
WITH_LARGE_COUNTS(GATHERV)

#define SCATTERV(c, count_t, displ_t)                                                                       \
    COLLECTIVE(Scatterv, scatterv, c,                                                                       \
               (const void *sendbuf, const count_t sendcounts[], const displ_t displs[], MPI_Datatype sendtype, \
                void *recvbuf, count_t recvcount, MPI_Datatype recvtype, int root, MPI_Comm comm),          \
               (sendbuf, sendcounts, displs, sendtype, recvbuf, recvcount, recvtype, root, comm),           \
               COUNTS_AT_ROOT(sendcounts) TYPE(sendtype) INT(recvcount) TYPE(recvtype) RANK(root) COMM(comm))
WITH_LARGE_COUNTS(SCATTERV)

/* ---- among all -------------------------------------------------------------------------------------------------- */

#define COMBINING_PARAMETERS(count_t)                                                                       \
    (const void *sendbuf, void *recvbuf, count_t count, MPI_Datatype datatype, MPI_Op op, MPI_Comm comm)
#define COMBINING_ARGUMENTS (sendbuf, recvbuf, count, datatype, op, comm)
#define COMBINING_ENTRY INT(count) TYPE(datatype) OP(op) COMM(comm)

#define ALLREDUCE_AND_SCANS(c, count_t, _)                                                                  \
    COLLECTIVE(Allreduce, allreduce, c, COMBINING_PARAMETERS(count_t), COMBINING_ARGUMENTS, COMBINING_ENTRY) \
    COLLECTIVE(Scan, scan, c, COMBINING_PARAMETERS(count_t), COMBINING_ARGUMENTS, COMBINING_ENTRY)          \
    COLLECTIVE(Exscan, exscan, c, COMBINING_PARAMETERS(count_t), COMBINING_ARGUMENTS, COMBINING_ENTRY)
WITH_LARGE_COUNTS(ALLREDUCE_AND_SCANS)

#define REDUCE_SCATTERS(c, count_t, _)                                                                      \
    COLLECTIVE(Reduce_scatter, reduce_scatter, c,                                                           \
               (const void *sendbuf, void *recvbuf, const count_t recvcounts[], MPI_Datatype datatype, MPI_Op op, \
                MPI_Comm comm),                                                                             \
               (sendbuf, recvbuf, recvcounts, datatype, op, comm),                                          \
               COUNTS(recvcounts) TYPE(datatype) OP(op) COMM(comm))                                         \
    COLLECTIVE(Reduce_scatter_block, reduce_scatter_block, c,                                               \
               (const void *sendbuf, void *recvbuf, count_t recvcount, MPI_Datatype datatype, MPI_Op op, MPI_Comm comm), \
               (sendbuf, recvbuf, recvcount, datatype, op, comm),                                           \
               INT(recvcount) TYPE(datatype) OP(op) COMM(comm))
WITH_LARGE_COUNTS(REDUCE_SCATTERS)

#define EXCHANGE_PARAMETERS(count_t)                                                                        \
    (const void *sendbuf, count_t sendcount, MPI_Datatype sendtype, void *recvbuf, count_t recvcount,       \
     MPI_Datatype recvtype, MPI_Comm comm)
#define EXCHANGE_ARGUMENTS (sendbuf, sendcount, sendtype, recvbuf, recvcount, recvtype, comm)
#define EXCHANGE_ENTRY INT(sendcount) TYPE(sendtype) INT(recvcount) TYPE(recvtype) COMM(comm)

#define EXCHANGEV_PARAMETERS(count_t, displ_t)                                                              \
    (const void *sendbuf, count_t sendcount, MPI_Datatype sendtype, void *recvbuf, const count_t recvcounts[], \
     const displ_t displs[], MPI_Datatype recvtype, MPI_Comm comm)
#define EXCHANGEV_ARGUMENTS (sendbuf, sendcount, sendtype, recvbuf, recvcounts, displs, recvtype, comm)

#define ALLTOALLV_PARAMETERS(count_t, displ_t)                                                              \
    (const void *sendbuf, const count_t sendcounts[], const displ_t sdispls[], MPI_Datatype sendtype,       \
     void *recvbuf, const count_t recvcounts[], const displ_t rdispls[], MPI_Datatype recvtype, MPI_Comm comm)
#define ALLTOALLV_ARGUMENTS (sendbuf, sendcounts, sdispls, sendtype, recvbuf, recvcounts, rdispls, recvtype, comm)
#define ALLTOALLV_ENTRY TYPE(sendtype) TYPE(recvtype) COMM(comm)

#define ALLTOALLW_PARAMETERS(count_t, displ_t)                                                              \
    (const void *sendbuf, const count_t sendcounts[], const displ_t sdispls[], const MPI_Datatype sendtypes[], \
     void *recvbuf, const count_t recvcounts[], const displ_t rdispls[], const MPI_Datatype recvtypes[], MPI_Comm comm)
#define ALLTOALLW_ARGUMENTS (sendbuf, sendcounts, sdispls, sendtypes, recvbuf, recvcounts, rdispls, recvtypes, comm)

#define ALLGATHERS(c, count_t, displ_t)                                                                     \
    COLLECTIVE(Allgather, allgather, c, EXCHANGE_PARAMETERS(count_t), EXCHANGE_ARGUMENTS, EXCHANGE_ENTRY)   \
    COLLECTIVE(Allgatherv, allgatherv, c, EXCHANGEV_PARAMETERS(count_t, displ_t), EXCHANGEV_ARGUMENTS,      \
               INT(sendcount) TYPE(sendtype) COUNTS(recvcounts) TYPE(recvtype) COMM(comm))
WITH_LARGE_COUNTS(ALLGATHERS)

#define ALLTOALLS(c, count_t, displ_t)                                                                      \
    COLLECTIVE(Alltoall, alltoall, c, EXCHANGE_PARAMETERS(count_t), EXCHANGE_ARGUMENTS, EXCHANGE_ENTRY)     \
    COLLECTIVE(Alltoallv, alltoallv, c, ALLTOALLV_PARAMETERS(count_t, displ_t), ALLTOALLV_ARGUMENTS, ALLTOALLV_ENTRY) \
    COLLECTIVE(Alltoallw, alltoallw, c, ALLTOALLW_PARAMETERS(count_t, displ_t), ALLTOALLW_ARGUMENTS, COMM(comm))
WITH_LARGE_COUNTS(ALLTOALLS)

/* ---- among neighbours: their lists have a count for each neighbour, not for each rank ---------------------------- */

#define NEIGHBOR_ALLGATHERS(c, count_t, displ_t)                                                            \
    COLLECTIVE(Neighbor_allgather, neighbor_allgather, c, EXCHANGE_PARAMETERS(count_t), EXCHANGE_ARGUMENTS, EXCHANGE_ENTRY) \
    COLLECTIVE(Neighbor_allgatherv, neighbor_allgatherv, c, EXCHANGEV_PARAMETERS(count_t, displ_t), EXCHANGEV_ARGUMENTS, \
               INT(sendcount) TYPE(sendtype) TYPE(recvtype) COMM(comm))
WITH_LARGE_COUNTS(NEIGHBOR_ALLGATHERS)

/* Neighbor_alltoallw has its displacements in bytes from the beginning. */
#define NEIGHBOR_ALLTOALLS(c, count_t, displ_t)                                                             \
    COLLECTIVE(Neighbor_alltoall, neighbor_alltoall, c, EXCHANGE_PARAMETERS(count_t), EXCHANGE_ARGUMENTS, EXCHANGE_ENTRY) \
    COLLECTIVE(Neighbor_alltoallv, neighbor_alltoallv, c, ALLTOALLV_PARAMETERS(count_t, displ_t), ALLTOALLV_ARGUMENTS, \
               ALLTOALLV_ENTRY)                                                                             \
    COLLECTIVE(Neighbor_alltoallw, neighbor_alltoallw, c, ALLTOALLW_PARAMETERS(count_t, MPI_Aint), ALLTOALLW_ARGUMENTS, \
               COMM(comm))
WITH_LARGE_COUNTS(NEIGHBOR_ALLTOALLS)
