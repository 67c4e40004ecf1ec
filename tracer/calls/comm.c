/* comm.c: communicators.
 *
 * From these calls and those of group.c and topology.c a reader derives which ranks a communicator has, so what it is made
 * of is told in full: colors and keys, groups, leaders.
 */
#include "wrap.h"

/* ---- duplicates ------------------------------------------------------------------------------------------------- */

#define GIVES_DUPLICATE keep_dims(give_comm("newcomm", code, newcomm), dims_of(comm));
WRAP(MPI_Comm_dup, (MPI_Comm comm, MPI_Comm *newcomm), (comm, newcomm), COMM(comm), GIVES_DUPLICATE)
WRAP(MPI_Comm_dup_with_info, (MPI_Comm comm, MPI_Info info, MPI_Comm *newcomm), (comm, info, newcomm),
     COMM(comm), GIVES_DUPLICATE)

/* The handle may be there at the return, or not before the request is complete. */
static void give_duplicate_later(int code, MPI_Comm comm, MPI_Comm *newcomm, MPI_Request *request)
{
    int is_there = code == MPI_SUCCESS && *newcomm != MPI_COMM_NULL;
    if (is_there)
        GIVES_DUPLICATE
    struct handle *h = give_request(code, request);
    if (!is_there)
        h->makes = newcomm;
}

WRAP(MPI_Comm_idup, (MPI_Comm comm, MPI_Comm *newcomm, MPI_Request *request), (comm, newcomm, request),
     COMM(comm) *newcomm = MPI_COMM_NULL;, give_duplicate_later(code, comm, newcomm, request);)
#if HAVE_4_0
WRAP(MPI_Comm_idup_with_info, (MPI_Comm comm, MPI_Info info, MPI_Comm *newcomm, MPI_Request *request),
     (comm, info, newcomm, request),
     COMM(comm) *newcomm = MPI_COMM_NULL;, give_duplicate_later(code, comm, newcomm, request);)
#endif

/* ---- parts ------------------------------------------------------------------------------------------------------ */

WRAP(MPI_Comm_split, (MPI_Comm comm, int color, int key, MPI_Comm *newcomm), (comm, color, key, newcomm),
     COMM(comm) COLOR(color) INT(key), GIVES_COMM(newcomm))
WRAP(MPI_Comm_split_type, (MPI_Comm comm, int split_type, int key, MPI_Info info, MPI_Comm *newcomm),
     (comm, split_type, key, info, newcomm), COMM(comm) INT(split_type) INT(key), GIVES_COMM(newcomm))
WRAP(MPI_Comm_create, (MPI_Comm comm, MPI_Group group, MPI_Comm *newcomm), (comm, group, newcomm),
     COMM(comm) GROUP(group), GIVES_COMM(newcomm))
WRAP(MPI_Comm_create_group, (MPI_Comm comm, MPI_Group group, int tag, MPI_Comm *newcomm), (comm, group, tag, newcomm),
     COMM(comm) GROUP(group) INT(tag), GIVES_COMM(newcomm))
#if HAVE_4_0
WRAP(MPI_Comm_create_from_group,
     (MPI_Group group, const char *stringtag, MPI_Info info, MPI_Errhandler errhandler, MPI_Comm *newcomm),
     (group, stringtag, info, errhandler, newcomm), GROUP(group) STRING(stringtag), GIVES_COMM(newcomm))
#endif

/* ---- intercommunicators ----------------------------------------------------------------------------------------- */

/* Only the leader's peer_comm and remote_leader count. Elsewhere anything may be passed for them, so a handle that was
 * never seen isn't told. */
WRAP(MPI_Intercomm_create,
     (MPI_Comm local_comm, int local_leader, MPI_Comm peer_comm, int remote_leader, int tag, MPI_Comm *newintercomm),
     (local_comm, local_leader, peer_comm, remote_leader, tag, newintercomm),
     COMM(local_comm) INT(local_leader)
     if (handle_known(COMMUNICATORS, KEY(peer_comm))) { COMM(peer_comm) }
     INT(remote_leader) INT(tag),
     GIVES_COMM(newintercomm))
WRAP(MPI_Intercomm_merge, (MPI_Comm intercomm, int high, MPI_Comm *newintracomm), (intercomm, high, newintracomm),
     COMM(intercomm) INT(high), GIVES_COMM(newintracomm))
#if HAVE_4_0
WRAP(MPI_Intercomm_create_from_groups,
     (MPI_Group local_group, int local_leader, MPI_Group remote_group, int remote_leader, const char *stringtag,
      MPI_Info info, MPI_Errhandler errhandler, MPI_Comm *newintercomm),
     (local_group, local_leader, remote_group, remote_leader, stringtag, info, errhandler, newintercomm),
     GROUP(local_group) INT(local_leader) GROUP(remote_group) INT(remote_leader) STRING(stringtag),
     GIVES_COMM(newintercomm))
#endif

/* ---- other processes -------------------------------------------------------------------------------------------- */

WRAP(MPI_Comm_spawn,
     (const char *command, char *argv[], int maxprocs, MPI_Info info, int root, MPI_Comm comm, MPI_Comm *intercomm,
      int errcodes[]),
     (command, argv, maxprocs, info, root, comm, intercomm, errcodes),
     STRING(command) INT(maxprocs) RANK(root) COMM(comm), GIVES_COMM(intercomm))
WRAP(MPI_Comm_spawn_multiple,
     (int count, char *commands[], char **argvs[], const int maxprocs[], const MPI_Info infos[], int root, MPI_Comm comm,
      MPI_Comm *intercomm, int errcodes[]),
     (count, commands, argvs, maxprocs, infos, root, comm, intercomm, errcodes),
     INT(count) RANK(root) COMM(comm), GIVES_COMM(intercomm))
WRAP(MPI_Comm_get_parent, (MPI_Comm *parent), (parent), , GIVES_COMM(parent))
WRAP(MPI_Comm_accept, (const char *port_name, MPI_Info info, int root, MPI_Comm comm, MPI_Comm *newcomm),
     (port_name, info, root, comm, newcomm), RANK(root) COMM(comm), GIVES_COMM(newcomm))
WRAP(MPI_Comm_connect, (const char *port_name, MPI_Info info, int root, MPI_Comm comm, MPI_Comm *newcomm),
     (port_name, info, root, comm, newcomm), RANK(root) COMM(comm), GIVES_COMM(newcomm))
WRAP(MPI_Comm_join, (int fd, MPI_Comm *intercomm), (fd, intercomm), , GIVES_COMM(intercomm))

WRAP(MPI_Open_port, (MPI_Info info, char *port_name), (info, port_name), , )
WRAP(MPI_Close_port, (const char *port_name), (port_name), STRING(port_name), )
WRAP(MPI_Publish_name, (const char *service_name, MPI_Info info, const char *port_name), (service_name, info, port_name),
     STRING(service_name) STRING(port_name), )
WRAP(MPI_Unpublish_name, (const char *service_name, MPI_Info info, const char *port_name), (service_name, info, port_name),
     STRING(service_name) STRING(port_name), )
WRAP(MPI_Lookup_name, (const char *service_name, MPI_Info info, char *port_name), (service_name, info, port_name),
     STRING(service_name), )

/* ---- the end ---------------------------------------------------------------------------------------------------- */

WRAP_END(MPI_Comm_free, MPI_Comm, COMMUNICATORS, comm)
WRAP_END(MPI_Comm_disconnect, MPI_Comm, COMMUNICATORS, comm)

/* ---- what a communicator is -------------------------------------------------------------------------------------- */

WRAP(MPI_Comm_rank, (MPI_Comm comm, int *rank), (comm, rank), COMM(comm), GIVES_INT(rank))
WRAP(MPI_Comm_size, (MPI_Comm comm, int *size), (comm, size), COMM(comm), GIVES_INT(size))
WRAP(MPI_Comm_remote_size, (MPI_Comm comm, int *size), (comm, size), COMM(comm), GIVES_INT(size))
WRAP(MPI_Comm_test_inter, (MPI_Comm comm, int *flag), (comm, flag), COMM(comm), GIVES_INT(flag))
WRAP(MPI_Comm_compare, (MPI_Comm comm1, MPI_Comm comm2, int *result), (comm1, comm2, result), COMM(comm1) COMM(comm2), )
WRAP(MPI_Comm_set_name, (MPI_Comm comm, const char *comm_name), (comm, comm_name), COMM(comm) STRING(comm_name), )
WRAP(MPI_Comm_set_info, (MPI_Comm comm, MPI_Info info), (comm, info), COMM(comm), )
