/* wrap.h: how a wrapper is written.
 *
 *     WRAP(MPI_Send, (const void *buf, int count, ..), (buf, count, ..), INT(count) .., )
 *
 * is a whole wrapper: name, parameters, arguments, what it puts at the entry, and what at the return. Both of the latter are
 * statements one behind another, most of them the macros at the end of this file; at the return `code` is what MPI answered.
 */
#ifndef MPIMATCH_WRAP_H
#define MPIMATCH_WRAP_H

#include "call.h"
#include "give.h"
#include "request.h"

/* Each wrapper stands under both names: see NEXT in call.h. */
#define ALIAS(name, parameters) int P##name parameters __attribute__((alias(#name)));

/* The form of all of them. `declarations` are what the entry looks up for the return, since MPI nulls handles that it ends. */
#define WRAPPER(name, parameters, arguments, declarations, entry, outcome)                                  \
    int name parameters                                                                                     \
    {                                                                                                       \
        declarations                                                                                        \
        if (enters(#name, SITE)) {                                                                          \
            entry                                                                                           \
        }                                                                                                   \
        int code = NEXT(name) arguments;                                                                    \
        if (returns(code)) {                                                                                \
            outcome                                                                                         \
        }                                                                                                   \
        return code;                                                                                        \
    }                                                                                                       \
    ALIAS(name, parameters)

#define WRAP(name, parameters, arguments, entry, outcome)                                                   \
    WRAPPER(name, parameters, arguments, , entry entered();, outcome returned();)

#define WRAP_WITH(declarations, name, parameters, arguments, entry, outcome)                                \
    WRAPPER(name, parameters, arguments, declarations, entry entered();, outcome returned();)

/* A poll (poll.h) that has found something where it was successful and its flag is set; the outcome may change `found`. */
#define WRAP_POLL(name, parameters, arguments, entry, flag_is_set, outcome)                                 \
    WRAPPER(name, parameters, arguments, , entry entered_poll();,                                           \
            int found = code == MPI_SUCCESS && (flag_is_set); outcome returned_poll(found);)

/* The end of a handle, whose number is free then. */
#define WRAP_END(name, handle_t, sort, x)                                                                   \
    WRAP_WITH(struct handle *h = NULL;, name, (handle_t *x), (x),                                                   \
              h = handle_of(sort, KEY(*x)); put_handle(#handle_t, #x, h);,                                  \
              if (code == MPI_SUCCESS) handle_freed(sort, h);)

#define OPENED(...) __VA_ARGS__     /* a list without its parentheses */

/* MPI 4.0 has many functions twice: with counts of int, and under a name that ends in _c with counts of MPI_Count. Such a
 * wrapper is a macro of that ending, the type of its counts, and that of displacements in lists. */
#if HAVE_4_0
#define WITH_LARGE_COUNTS(wrapper) wrapper(, int, int) wrapper(_c, MPI_Count, MPI_Aint)
#else
#define WITH_LARGE_COUNTS(wrapper) wrapper(, int, int)
#endif

/* ---- what is put at the entry: each parameter under its own name ------------------------------------------------- */

#define INT(x) put_int(#x, x);
#define INTS(x, n) put_list(#x, n, x);
#define RANK(x) put_rank(#x, x);
#define TAG(x) put_tag(#x, x);
#define COLOR(x) put_color(#x, x);
#define STRING(x) put_string(#x, x);
#define OP(x) put_operation(#x, x);
#define TYPE(x) put_handle("MPI_Datatype", #x, handle_of(DATATYPES, KEY(x)));
#define COMM(x) put_handle("MPI_Comm", #x, handle_of(COMMUNICATORS, KEY(x)));
#define GROUP(x) put_handle("MPI_Group", #x, handle_of(GROUPS, KEY(x)));
#define WIN(x) put_handle("MPI_Win", #x, handle_of(WINDOWS, KEY(x)));
#define FH(x) put_handle("MPI_File", #x, handle_of(FILES, KEY(x)));
/* Lists of counts in a collective call: of all ranks, and of the root alone. */
#define COUNTS(x) put_list(#x, counts_of(comm), x);
#define COUNTS_AT_ROOT(x) put_list(#x, counts_at_root(comm, root), x);
/* The status is needed also where the program ignores it. */
#define STATUS status = real_status(status);

/* ---- what is put at the return ------------------------------------------------------------------------------------ */

#define GIVES_INT(x) if (code == MPI_SUCCESS) put_int(#x, *x);
#define GIVES_RECEIVED if (code == MPI_SUCCESS) put_received(status);
#define GIVES_REQUEST give_request(code, request);
#define GIVES_RECEIVE give_request(code, request)->receives = 1;
#define GIVES_PERSISTENT give_request(code, request)->persistent = 1;
#define GIVES_COMM(x) give_comm(#x, code, x);
#define GIVES_GROUP(x) give_group(#x, code, x);
#define GIVES_WIN(x) give_window(#x, code, x);
#define GIVES_FILE(x) give_file(#x, code, x);
#define GIVES_TYPE(x) give_datatype(#x, code, x);
#define GIVES_OP(x) give_operation(#x, code, x);

#endif
