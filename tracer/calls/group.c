/* group.c: groups of processes. */
#include "wrap.h"

WRAP(MPI_Comm_group, (MPI_Comm comm, MPI_Group *group), (comm, group), COMM(comm), GIVES_GROUP(group))
WRAP(MPI_Comm_remote_group, (MPI_Comm comm, MPI_Group *group), (comm, group), COMM(comm), GIVES_GROUP(group))
WRAP(MPI_Win_get_group, (MPI_Win win, MPI_Group *group), (win, group), WIN(win), GIVES_GROUP(group))
WRAP(MPI_File_get_group, (MPI_File fh, MPI_Group *group), (fh, group), FH(fh), GIVES_GROUP(group))
#if HAVE_4_0
WRAP(MPI_Group_from_session_pset, (MPI_Session session, const char *pset_name, MPI_Group *newgroup),
     (session, pset_name, newgroup), STRING(pset_name), GIVES_GROUP(newgroup))
#endif

#define OF_RANKS(name)                                                                                      \
    WRAP(name, (MPI_Group group, int n, const int ranks[], MPI_Group *newgroup), (group, n, ranks, newgroup), \
         GROUP(group) INT(n) INTS(ranks, n), GIVES_GROUP(newgroup))
OF_RANKS(MPI_Group_incl)
OF_RANKS(MPI_Group_excl)

/* First, last and step of each. */
#define OF_RANGES(name)                                                                                     \
    WRAP(name, (MPI_Group group, int n, int ranges[][3], MPI_Group *newgroup), (group, n, ranges, newgroup), \
         GROUP(group) INT(n) put_ints("ranges", 3 * n, &ranges[0][0]);, GIVES_GROUP(newgroup))
OF_RANGES(MPI_Group_range_incl)
OF_RANGES(MPI_Group_range_excl)

#define OF_TWO_GROUPS(name)                                                                                 \
    WRAP(name, (MPI_Group group1, MPI_Group group2, MPI_Group *newgroup), (group1, group2, newgroup),       \
         GROUP(group1) GROUP(group2), GIVES_GROUP(newgroup))
OF_TWO_GROUPS(MPI_Group_union)
OF_TWO_GROUPS(MPI_Group_intersection)
OF_TWO_GROUPS(MPI_Group_difference)

WRAP_END(MPI_Group_free, MPI_Group, GROUPS, group)

WRAP(MPI_Group_rank, (MPI_Group group, int *rank), (group, rank), GROUP(group), )
WRAP(MPI_Group_size, (MPI_Group group, int *size), (group, size), GROUP(group), )
WRAP(MPI_Group_compare, (MPI_Group group1, MPI_Group group2, int *result), (group1, group2, result),
     GROUP(group1) GROUP(group2), )
WRAP(MPI_Group_translate_ranks, (MPI_Group group1, int n, const int ranks1[], MPI_Group group2, int ranks2[]),
     (group1, n, ranks1, group2, ranks2), GROUP(group1) INT(n) GROUP(group2), )
