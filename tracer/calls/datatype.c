/* datatype.c: datatypes, operations and packed data.
 *
 * They wait for nobody; they say how far a rank had come, and that a number is another type now.
 */
#include "wrap.h"

WRAP_END(MPI_Type_free, MPI_Datatype, DATATYPES, datatype)
WRAP(MPI_Type_commit, (MPI_Datatype *datatype), (datatype),
     put_handle("MPI_Datatype", "datatype", handle_of(DATATYPES, KEY(*datatype)));, )

/* ---- made of another -------------------------------------------------------------------------------------------- */

/* aint_t: what is MPI_Aint beside counts of int is MPI_Count beside counts of MPI_Count. */
#define CONSTRUCTORS(c, count_t, aint_t)                                                                    \
    WRAP(MPI_Type_contiguous##c, (count_t count, MPI_Datatype oldtype, MPI_Datatype *newtype), (count, oldtype, newtype), \
         INT(count) TYPE(oldtype), GIVES_TYPE(newtype))                                                     \
    WRAP(MPI_Type_vector##c,                                                                                \
         (count_t count, count_t blocklength, count_t stride, MPI_Datatype oldtype, MPI_Datatype *newtype), \
         (count, blocklength, stride, oldtype, newtype),                                                    \
         INT(count) INT(blocklength) INT(stride) TYPE(oldtype), GIVES_TYPE(newtype))                        \
    WRAP(MPI_Type_create_hvector##c,                                                                        \
         (count_t count, count_t blocklength, aint_t stride, MPI_Datatype oldtype, MPI_Datatype *newtype),  \
         (count, blocklength, stride, oldtype, newtype),                                                    \
         INT(count) INT(blocklength) INT(stride) TYPE(oldtype), GIVES_TYPE(newtype))                        \
    WRAP(MPI_Type_indexed##c,                                                                               \
         (count_t count, const count_t blocklengths[], const count_t displacements[], MPI_Datatype oldtype, \
          MPI_Datatype *newtype),                                                                           \
         (count, blocklengths, displacements, oldtype, newtype), INT(count) TYPE(oldtype), GIVES_TYPE(newtype)) \
    WRAP(MPI_Type_create_hindexed##c,                                                                       \
         (count_t count, const count_t blocklengths[], const aint_t displacements[], MPI_Datatype oldtype,  \
          MPI_Datatype *newtype),                                                                           \
         (count, blocklengths, displacements, oldtype, newtype), INT(count) TYPE(oldtype), GIVES_TYPE(newtype)) \
    WRAP(MPI_Type_create_indexed_block##c,                                                                  \
         (count_t count, count_t blocklength, const count_t displacements[], MPI_Datatype oldtype, MPI_Datatype *newtype), \
         (count, blocklength, displacements, oldtype, newtype),                                             \
         INT(count) INT(blocklength) TYPE(oldtype), GIVES_TYPE(newtype))                                    \
    WRAP(MPI_Type_create_hindexed_block##c,                                                                 \
         (count_t count, count_t blocklength, const aint_t displacements[], MPI_Datatype oldtype, MPI_Datatype *newtype), \
         (count, blocklength, displacements, oldtype, newtype),                                             \
         INT(count) INT(blocklength) TYPE(oldtype), GIVES_TYPE(newtype))                                    \
    WRAP(MPI_Type_create_struct##c,                                                                         \
         (count_t count, const count_t blocklengths[], const aint_t displacements[], const MPI_Datatype types[], \
          MPI_Datatype *newtype),                                                                           \
         (count, blocklengths, displacements, types, newtype), INT(count), GIVES_TYPE(newtype))             \
    WRAP(MPI_Type_create_subarray##c,                                                                       \
         (int ndims, const count_t sizes[], const count_t subsizes[], const count_t starts[], int order,    \
          MPI_Datatype oldtype, MPI_Datatype *newtype),                                                     \
         (ndims, sizes, subsizes, starts, order, oldtype, newtype),                                         \
         INT(ndims) INT(order) TYPE(oldtype), GIVES_TYPE(newtype))                                          \
    WRAP(MPI_Type_create_darray##c,                                                                         \
         (int size, int rank, int ndims, const count_t gsizes[], const int distribs[], const int dargs[],   \
          const int psizes[], int order, MPI_Datatype oldtype, MPI_Datatype *newtype),                      \
         (size, rank, ndims, gsizes, distribs, dargs, psizes, order, oldtype, newtype),                     \
         INT(size) INT(rank) INT(ndims) INT(order) TYPE(oldtype), GIVES_TYPE(newtype))                      \
    WRAP(MPI_Type_create_resized##c, (MPI_Datatype oldtype, aint_t lb, aint_t extent, MPI_Datatype *newtype), \
         (oldtype, lb, extent, newtype), TYPE(oldtype) INT(lb) INT(extent), GIVES_TYPE(newtype))
CONSTRUCTORS(, int, MPI_Aint)
#if HAVE_4_0
CONSTRUCTORS(_c, MPI_Count, MPI_Count)
#endif

WRAP(MPI_Type_dup, (MPI_Datatype oldtype, MPI_Datatype *newtype), (oldtype, newtype), TYPE(oldtype), GIVES_TYPE(newtype))
WRAP(MPI_Type_create_f90_integer, (int r, MPI_Datatype *newtype), (r, newtype), INT(r), GIVES_TYPE(newtype))
WRAP(MPI_Type_create_f90_real, (int p, int r, MPI_Datatype *newtype), (p, r, newtype), INT(p) INT(r), GIVES_TYPE(newtype))
WRAP(MPI_Type_create_f90_complex, (int p, int r, MPI_Datatype *newtype), (p, r, newtype), INT(p) INT(r), GIVES_TYPE(newtype))

/* ---- packed data ------------------------------------------------------------------------------------------------ */

/* place_t: of sizes and positions in the packed bytes. */
#define PACKS(c, count_t, place_t)                                                                          \
    WRAP(MPI_Pack##c,                                                                                       \
         (const void *inbuf, count_t incount, MPI_Datatype datatype, void *outbuf, place_t outsize, place_t *position, \
          MPI_Comm comm),                                                                                   \
         (inbuf, incount, datatype, outbuf, outsize, position, comm),                                       \
         INT(incount) TYPE(datatype) INT(outsize) COMM(comm), )                                             \
    WRAP(MPI_Unpack##c,                                                                                     \
         (const void *inbuf, place_t insize, place_t *position, void *outbuf, count_t outcount, MPI_Datatype datatype, \
          MPI_Comm comm),                                                                                   \
         (inbuf, insize, position, outbuf, outcount, datatype, comm),                                       \
         INT(insize) INT(outcount) TYPE(datatype) COMM(comm), )
#define PACKS_EXTERNAL(c, count_t, place_t)                                                                 \
    WRAP(MPI_Pack_external##c,                                                                              \
         (const char *datarep, const void *inbuf, count_t incount, MPI_Datatype datatype, void *outbuf, place_t outsize, \
          place_t *position),                                                                               \
         (datarep, inbuf, incount, datatype, outbuf, outsize, position),                                    \
         INT(incount) TYPE(datatype) INT(outsize), )                                                        \
    WRAP(MPI_Unpack_external##c,                                                                            \
         (const char *datarep, const void *inbuf, place_t insize, place_t *position, void *outbuf, count_t outcount, \
          MPI_Datatype datatype),                                                                           \
         (datarep, inbuf, insize, position, outbuf, outcount, datatype), INT(insize) INT(outcount) TYPE(datatype), )
PACKS(, int, int)
PACKS_EXTERNAL(, int, MPI_Aint)
#if HAVE_4_0
PACKS(_c, MPI_Count, MPI_Count)
PACKS_EXTERNAL(_c, MPI_Count, MPI_Count)
#endif

/* ---- operations ------------------------------------------------------------------------------------------------- */

WRAP(MPI_Op_create, (MPI_User_function *user_fn, int commute, MPI_Op *op), (user_fn, commute, op), INT(commute), GIVES_OP(op))
#if HAVE_4_0
WRAP(MPI_Op_create_c, (MPI_User_function_c *user_fn, int commute, MPI_Op *op), (user_fn, commute, op),
     INT(commute), GIVES_OP(op))
#endif
WRAP_WITH(struct handle *h = NULL;, MPI_Op_free, (MPI_Op *op), (op),
          h = handle_of(OPERATIONS, KEY(*op)); put_operation("op", *op);,
          if (code == MPI_SUCCESS)
              handle_freed(OPERATIONS, h);)

#define REDUCE_LOCAL(c, count_t, _)                                                                         \
    WRAP(MPI_Reduce_local##c, (const void *inbuf, void *inoutbuf, count_t count, MPI_Datatype datatype, MPI_Op op), \
         (inbuf, inoutbuf, count, datatype, op), INT(count) TYPE(datatype) OP(op), )
WITH_LARGE_COUNTS(REDUCE_LOCAL)
