/* start.c: the beginning and the end of MPI. */
#include "output.h"
#include "wrap.h"

#define GIVES_WORLD if (code == MPI_SUCCESS) output_has_rank();

WRAP(MPI_Init, (int *argc, char ***argv), (argc, argv), , GIVES_WORLD)
WRAP(MPI_Init_thread, (int *argc, char ***argv, int required, int *provided), (argc, argv, required, provided),
     INT(required), GIVES_WORLD GIVES_INT(provided))
WRAP(MPI_Finalize, (void), (), , )
WRAP(MPI_Abort, (MPI_Comm comm, int errorcode), (comm, errorcode), COMM(comm) INT(errorcode), )

#if HAVE_4_0
WRAP(MPI_Session_init, (MPI_Info info, MPI_Errhandler errhandler, MPI_Session *session), (info, errhandler, session), ,
     if (code == MPI_SUCCESS) put_handle("MPI_Session", "session", handle_given(SESSIONS, KEY(*session)));)
WRAP_END(MPI_Session_finalize, MPI_Session, SESSIONS, session)
#endif
