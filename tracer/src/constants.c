/* constants.c: what the standard names has the same numbers on all ranks, and its name beside them. */
#include "handle.h"

/* Numbers from here on are of what a program makes. */
#define MADE 4
#define MADE_OPERATIONS 32
#define MADE_DATATYPES 128

struct constant {
    uintptr_t key;
    int number;
    const char *name;
};

#define NAMED(number, handle) { KEY(handle), number, #handle }

static void name_all(enum sort sort, const struct constant *constants, size_t n)
{
    for (size_t i = 0; i < n; i++)
        name_constant(sort, constants[i].key, constants[i].number, constants[i].name);
}
#define NAME_ALL(sort, constants) name_all(sort, constants, sizeof constants / sizeof *constants)

/* The handles of Open MPI are addresses, which no static table can hold as numbers. */
static void name_operations(void)
{
    const struct constant operations[] = {
        NAMED(1, MPI_OP_NULL), NAMED(2, MPI_MAX), NAMED(3, MPI_SUM), NAMED(4, MPI_MIN), NAMED(5, MPI_PROD),
        NAMED(6, MPI_LAND), NAMED(7, MPI_BAND), NAMED(8, MPI_LOR), NAMED(9, MPI_BOR), NAMED(10, MPI_LXOR),
        NAMED(11, MPI_BXOR), NAMED(12, MPI_MINLOC), NAMED(13, MPI_MAXLOC), NAMED(14, MPI_REPLACE), NAMED(15, MPI_NO_OP),
    };
    NAME_ALL(OPERATIONS, operations);
}

static void name_datatypes(void)
{
    const struct constant datatypes[] = {
        NAMED(1, MPI_DATATYPE_NULL), NAMED(2, MPI_CHAR), NAMED(3, MPI_SIGNED_CHAR), NAMED(4, MPI_UNSIGNED_CHAR),
        NAMED(5, MPI_BYTE), NAMED(6, MPI_WCHAR), NAMED(7, MPI_SHORT), NAMED(8, MPI_UNSIGNED_SHORT), NAMED(9, MPI_INT),
        NAMED(10, MPI_UNSIGNED), NAMED(11, MPI_LONG), NAMED(12, MPI_UNSIGNED_LONG), NAMED(13, MPI_FLOAT),
        NAMED(14, MPI_DOUBLE), NAMED(15, MPI_LONG_DOUBLE), NAMED(16, MPI_LONG_LONG), NAMED(17, MPI_UNSIGNED_LONG_LONG),
        NAMED(18, MPI_PACKED), NAMED(19, MPI_FLOAT_INT), NAMED(20, MPI_DOUBLE_INT), NAMED(21, MPI_LONG_INT),
        NAMED(22, MPI_SHORT_INT), NAMED(23, MPI_2INT), NAMED(24, MPI_LONG_DOUBLE_INT),
        NAMED(25, MPI_INT8_T), NAMED(26, MPI_INT16_T), NAMED(27, MPI_INT32_T), NAMED(28, MPI_INT64_T),
        NAMED(29, MPI_UINT8_T), NAMED(30, MPI_UINT16_T), NAMED(31, MPI_UINT32_T), NAMED(32, MPI_UINT64_T),
        NAMED(33, MPI_C_BOOL), NAMED(34, MPI_C_FLOAT_COMPLEX), NAMED(35, MPI_C_DOUBLE_COMPLEX),
        NAMED(36, MPI_C_LONG_DOUBLE_COMPLEX), NAMED(37, MPI_AINT), NAMED(38, MPI_OFFSET), NAMED(39, MPI_COUNT),
        NAMED(40, MPI_CXX_BOOL), NAMED(41, MPI_CXX_FLOAT_COMPLEX), NAMED(42, MPI_CXX_DOUBLE_COMPLEX),
        NAMED(43, MPI_CXX_LONG_DOUBLE_COMPLEX),
        NAMED(44, MPI_CHARACTER), NAMED(45, MPI_LOGICAL), NAMED(46, MPI_INTEGER), NAMED(47, MPI_REAL),
        NAMED(48, MPI_DOUBLE_PRECISION), NAMED(49, MPI_COMPLEX), NAMED(50, MPI_DOUBLE_COMPLEX),
        NAMED(51, MPI_INTEGER1), NAMED(52, MPI_INTEGER2), NAMED(53, MPI_INTEGER4), NAMED(54, MPI_INTEGER8),
        NAMED(55, MPI_REAL4), NAMED(56, MPI_REAL8), NAMED(57, MPI_REAL16), NAMED(58, MPI_COMPLEX8),
        NAMED(59, MPI_COMPLEX16), NAMED(60, MPI_COMPLEX32), NAMED(61, MPI_2INTEGER), NAMED(62, MPI_2REAL),
        NAMED(63, MPI_2DOUBLE_PRECISION),
    };
    NAME_ALL(DATATYPES, datatypes);
}

static void name_others(void)
{
    const struct constant comms[] = { NAMED(1, MPI_COMM_NULL), NAMED(2, MPI_COMM_WORLD), NAMED(3, MPI_COMM_SELF) };
    const struct constant groups[] = { NAMED(1, MPI_GROUP_NULL), NAMED(2, MPI_GROUP_EMPTY) };
    const struct constant windows[] = { NAMED(1, MPI_WIN_NULL) };
    const struct constant files[] = { NAMED(1, MPI_FILE_NULL) };
    const struct constant requests[] = { NAMED(1, MPI_REQUEST_NULL) };
    const struct constant messages[] = { NAMED(1, MPI_MESSAGE_NULL), NAMED(2, MPI_MESSAGE_NO_PROC) };
    NAME_ALL(COMMUNICATORS, comms);
    NAME_ALL(GROUPS, groups);
    NAME_ALL(WINDOWS, windows);
    NAME_ALL(FILES, files);
    NAME_ALL(REQUESTS, requests);
    NAME_ALL(MESSAGES, messages);
}

void name_constants(void)
{
    for (enum sort sort = 0; sort < SORTS; sort++)
        number_from(sort, MADE);
    number_from(OPERATIONS, MADE_OPERATIONS);
    number_from(DATATYPES, MADE_DATATYPES);
    name_others();
    name_operations();
    name_datatypes();
}
