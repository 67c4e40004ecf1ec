/* mpi_names.h: mpi.h, as this library needs it.
 *
 * The functions of MPI are all that the library shows (it is compiled with -fvisibility=hidden): a name of its own must
 * not stand in for one of the program.
 */
#ifndef MPIMATCH_MPI_NAMES_H
#define MPIMATCH_MPI_NAMES_H

#pragma GCC visibility push(default)
#include <mpi.h>
#pragma GCC visibility pop

#define HAVE_3_1 (MPI_VERSION > 3 || (MPI_VERSION == 3 && MPI_SUBVERSION >= 1))
#define HAVE_4_0 (MPI_VERSION >= 4)

#endif
