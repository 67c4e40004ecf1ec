/* window.c: windows and one-sided calls. */
#include "wrap.h"

/* ---- windows ---------------------------------------------------------------------------------------------------- */

#define WINDOW_MAKERS(c, unit_t)                                                                                  \
    WRAP(MPI_Win_create##c, (void *base, MPI_Aint size, unit_t disp_unit, MPI_Info info, MPI_Comm comm, MPI_Win *win), \
         (base, size, disp_unit, info, comm, win), INT(size) INT(disp_unit) COMM(comm), GIVES_WIN(win))     \
    WRAP(MPI_Win_allocate##c, (MPI_Aint size, unit_t disp_unit, MPI_Info info, MPI_Comm comm, void *baseptr, MPI_Win *win), \
         (size, disp_unit, info, comm, baseptr, win), INT(size) INT(disp_unit) COMM(comm), GIVES_WIN(win))  \
    WRAP(MPI_Win_allocate_shared##c,                                                                        \
         (MPI_Aint size, unit_t disp_unit, MPI_Info info, MPI_Comm comm, void *baseptr, MPI_Win *win),      \
         (size, disp_unit, info, comm, baseptr, win), INT(size) INT(disp_unit) COMM(comm), GIVES_WIN(win))  \
    WRAP(MPI_Win_shared_query##c, (MPI_Win win, int rank, MPI_Aint *size, unit_t *disp_unit, void *baseptr), \
         (win, rank, size, disp_unit, baseptr), WIN(win) INT(rank), )
WINDOW_MAKERS(, int)
#if HAVE_4_0
WINDOW_MAKERS(_c, MPI_Aint)
#endif
WRAP(MPI_Win_create_dynamic, (MPI_Info info, MPI_Comm comm, MPI_Win *win), (info, comm, win), COMM(comm), GIVES_WIN(win))
WRAP_END(MPI_Win_free, MPI_Win, WINDOWS, win)

/* ---- epochs ----------------------------------------------------------------------------------------------------- */

WRAP(MPI_Win_fence, (int assert, MPI_Win win), (assert, win), INT(assert) WIN(win), )
WRAP(MPI_Win_start, (MPI_Group group, int assert, MPI_Win win), (group, assert, win), GROUP(group) INT(assert) WIN(win), )
WRAP(MPI_Win_complete, (MPI_Win win), (win), WIN(win), )
WRAP(MPI_Win_post, (MPI_Group group, int assert, MPI_Win win), (group, assert, win), GROUP(group) INT(assert) WIN(win), )
WRAP(MPI_Win_wait, (MPI_Win win), (win), WIN(win), )
WRAP_POLL(MPI_Win_test, (MPI_Win win, int *flag), (win, flag), WIN(win), *flag, put_int("flag", found);)
WRAP(MPI_Win_lock, (int lock_type, int rank, int assert, MPI_Win win), (lock_type, rank, assert, win),
     INT(lock_type) INT(rank) INT(assert) WIN(win), )
WRAP(MPI_Win_unlock, (int rank, MPI_Win win), (rank, win), INT(rank) WIN(win), )
WRAP(MPI_Win_lock_all, (int assert, MPI_Win win), (assert, win), INT(assert) WIN(win), )
WRAP(MPI_Win_unlock_all, (MPI_Win win), (win), WIN(win), )
WRAP(MPI_Win_flush, (int rank, MPI_Win win), (rank, win), INT(rank) WIN(win), )
WRAP(MPI_Win_flush_all, (MPI_Win win), (win), WIN(win), )
WRAP(MPI_Win_flush_local, (int rank, MPI_Win win), (rank, win), INT(rank) WIN(win), )
WRAP(MPI_Win_flush_local_all, (MPI_Win win), (win), WIN(win), )
/* Programs spin on a window with it. It changes nothing for anybody else, as a poll that finds nothing. */
WRAP_POLL(MPI_Win_sync, (MPI_Win win), (win), WIN(win), 0, found = code != MPI_SUCCESS;)

/* ---- transfers: each is there with a request, too ---------------------------------------------------------------- */

#define TRANSFER(name, rname, c, parameters, arguments, entry)                                              \
    WRAP(MPI_##name##c, (OPENED parameters), (OPENED arguments), entry, )                                   \
    WRAP(MPI_R##rname##c, (OPENED parameters, MPI_Request *request), (OPENED arguments, request), entry, GIVES_REQUEST)

#define TARGET RANK(target_rank) INT(target_disp) INT(target_count) TYPE(target_datatype)

#define PUT_AND_GET(c, count_t, _)                                                                          \
    TRANSFER(Put, put, c,                                                                                   \
             (const void *origin_addr, count_t origin_count, MPI_Datatype origin_datatype, int target_rank, \
              MPI_Aint target_disp, count_t target_count, MPI_Datatype target_datatype, MPI_Win win),       \
             (origin_addr, origin_count, origin_datatype, target_rank, target_disp, target_count, target_datatype, win), \
             INT(origin_count) TYPE(origin_datatype) TARGET WIN(win))                                       \
    TRANSFER(Get, get, c,                                                                                   \
             (void *origin_addr, count_t origin_count, MPI_Datatype origin_datatype, int target_rank,       \
              MPI_Aint target_disp, count_t target_count, MPI_Datatype target_datatype, MPI_Win win),       \
             (origin_addr, origin_count, origin_datatype, target_rank, target_disp, target_count, target_datatype, win), \
             INT(origin_count) TYPE(origin_datatype) TARGET WIN(win))
WITH_LARGE_COUNTS(PUT_AND_GET)

#define ACCUMULATES(c, count_t, _)                                                                          \
    TRANSFER(Accumulate, accumulate, c,                                                                     \
             (const void *origin_addr, count_t origin_count, MPI_Datatype origin_datatype, int target_rank, \
              MPI_Aint target_disp, count_t target_count, MPI_Datatype target_datatype, MPI_Op op, MPI_Win win), \
             (origin_addr, origin_count, origin_datatype, target_rank, target_disp, target_count, target_datatype, op, win), \
             INT(origin_count) TYPE(origin_datatype) TARGET OP(op) WIN(win))                                \
    TRANSFER(Get_accumulate, get_accumulate, c,                                                             \
             (const void *origin_addr, count_t origin_count, MPI_Datatype origin_datatype, void *result_addr, \
              count_t result_count, MPI_Datatype result_datatype, int target_rank, MPI_Aint target_disp,    \
              count_t target_count, MPI_Datatype target_datatype, MPI_Op op, MPI_Win win),                  \
             (origin_addr, origin_count, origin_datatype, result_addr, result_count, result_datatype, target_rank, \
              target_disp, target_count, target_datatype, op, win),                                         \
             INT(origin_count) TYPE(origin_datatype) INT(result_count) TYPE(result_datatype) TARGET OP(op) WIN(win))
WITH_LARGE_COUNTS(ACCUMULATES)

WRAP(MPI_Fetch_and_op,
     (const void *origin_addr, void *result_addr, MPI_Datatype datatype, int target_rank, MPI_Aint target_disp, MPI_Op op,
      MPI_Win win),
     (origin_addr, result_addr, datatype, target_rank, target_disp, op, win),
     TYPE(datatype) RANK(target_rank) INT(target_disp) OP(op) WIN(win), )
WRAP(MPI_Compare_and_swap,
     (const void *origin_addr, const void *compare_addr, void *result_addr, MPI_Datatype datatype, int target_rank,
      MPI_Aint target_disp, MPI_Win win),
     (origin_addr, compare_addr, result_addr, datatype, target_rank, target_disp, win),
     TYPE(datatype) RANK(target_rank) INT(target_disp) WIN(win), )

/* ---- local ------------------------------------------------------------------------------------------------------ */

WRAP(MPI_Win_attach, (MPI_Win win, void *base, MPI_Aint size), (win, base, size), WIN(win) INT(size), )
WRAP(MPI_Win_detach, (MPI_Win win, const void *base), (win, base), WIN(win), )
WRAP(MPI_Win_set_name, (MPI_Win win, const char *win_name), (win, win_name), WIN(win) STRING(win_name), )
WRAP(MPI_Win_set_info, (MPI_Win win, MPI_Info info), (win, info), WIN(win), )
WRAP(MPI_Alloc_mem, (MPI_Aint size, MPI_Info info, void *baseptr), (size, info, baseptr), INT(size), )
WRAP(MPI_Free_mem, (void *base), (base), , )
