/* file.c: files. */
#include "wrap.h"

/* ---- collective ------------------------------------------------------------------------------------------------- */

WRAP(MPI_File_open, (MPI_Comm comm, const char *filename, int amode, MPI_Info info, MPI_File *fh),
     (comm, filename, amode, info, fh), COMM(comm) STRING(filename) INT(amode), GIVES_FILE(fh))
WRAP_END(MPI_File_close, MPI_File, FILES, fh)
WRAP(MPI_File_set_view,
     (MPI_File fh, MPI_Offset disp, MPI_Datatype etype, MPI_Datatype filetype, const char *datarep, MPI_Info info),
     (fh, disp, etype, filetype, datarep, info), FH(fh) INT(disp) TYPE(etype) TYPE(filetype), )
WRAP(MPI_File_set_size, (MPI_File fh, MPI_Offset size), (fh, size), FH(fh) INT(size), )
WRAP(MPI_File_preallocate, (MPI_File fh, MPI_Offset size), (fh, size), FH(fh) INT(size), )
WRAP(MPI_File_sync, (MPI_File fh), (fh), FH(fh), )
WRAP(MPI_File_set_atomicity, (MPI_File fh, int flag), (fh, flag), FH(fh) INT(flag), )
WRAP(MPI_File_seek_shared, (MPI_File fh, MPI_Offset offset, int whence), (fh, offset, whence),
     FH(fh) INT(offset) INT(whence), )
WRAP(MPI_File_set_info, (MPI_File fh, MPI_Info info), (fh, info), FH(fh), )

/* ---- reads and writes ------------------------------------------------------------------------------------------- */

#define DATA INT(count) TYPE(datatype)

/* Of one direction: at the file pointer, and at an offset. */
#define ACCESS(name, c, buffer_t, count_t)                                                                  \
    WRAP(MPI_File_##name##c, (MPI_File fh, buffer_t buf, count_t count, MPI_Datatype datatype, MPI_Status *status), \
         (fh, buf, count, datatype, status), FH(fh) DATA, )
#define ACCESS_AT(name, c, buffer_t, count_t)                                                               \
    WRAP(MPI_File_##name##c,                                                                                \
         (MPI_File fh, MPI_Offset offset, buffer_t buf, count_t count, MPI_Datatype datatype, MPI_Status *status), \
         (fh, offset, buf, count, datatype, status), FH(fh) INT(offset) DATA, )
#define STARTED_ACCESS(name, c, buffer_t, count_t)                                                          \
    WRAP(MPI_File_##name##c, (MPI_File fh, buffer_t buf, count_t count, MPI_Datatype datatype, MPI_Request *request), \
         (fh, buf, count, datatype, request), FH(fh) DATA, GIVES_REQUEST)
#define STARTED_ACCESS_AT(name, c, buffer_t, count_t)                                                       \
    WRAP(MPI_File_##name##c,                                                                                \
         (MPI_File fh, MPI_Offset offset, buffer_t buf, count_t count, MPI_Datatype datatype, MPI_Request *request), \
         (fh, offset, buf, count, datatype, request), FH(fh) INT(offset) DATA, GIVES_REQUEST)
#define BEGUN_ACCESS(name, c, buffer_t, count_t)                                                            \
    WRAP(MPI_File_##name##_begin##c, (MPI_File fh, buffer_t buf, count_t count, MPI_Datatype datatype),     \
         (fh, buf, count, datatype), FH(fh) DATA, )
#define BEGUN_ACCESS_AT(name, c, buffer_t, count_t)                                                         \
    WRAP(MPI_File_##name##_begin##c, (MPI_File fh, MPI_Offset offset, buffer_t buf, count_t count, MPI_Datatype datatype), \
         (fh, offset, buf, count, datatype), FH(fh) INT(offset) DATA, )

#define ACCESSES(read, c, buffer_t, count_t)                                                                \
    ACCESS(read, c, buffer_t, count_t)                                                                      \
    ACCESS_AT(read##_at, c, buffer_t, count_t)                                                              \
    ACCESS(read##_shared, c, buffer_t, count_t)                                                             \
    STARTED_ACCESS(i##read, c, buffer_t, count_t)                                                           \
    STARTED_ACCESS_AT(i##read##_at, c, buffer_t, count_t)                                                   \
    STARTED_ACCESS(i##read##_shared, c, buffer_t, count_t)                                                  \
    /* collective: */                                                                                       \
    ACCESS(read##_all, c, buffer_t, count_t)                                                                \
    ACCESS_AT(read##_at_all, c, buffer_t, count_t)                                                          \
    ACCESS(read##_ordered, c, buffer_t, count_t)                                                            \
    BEGUN_ACCESS(read##_all, c, buffer_t, count_t)                                                          \
    BEGUN_ACCESS_AT(read##_at_all, c, buffer_t, count_t)                                                    \
    BEGUN_ACCESS(read##_ordered, c, buffer_t, count_t)

#define READS_AND_WRITES(c, count_t, _) ACCESSES(read, c, void *, count_t) ACCESSES(write, c, const void *, count_t)
WITH_LARGE_COUNTS(READS_AND_WRITES)

#if HAVE_3_1
#define COLLECTIVE_STARTS(c, count_t, _)                                                                    \
    STARTED_ACCESS(iread_all, c, void *, count_t)                                                           \
    STARTED_ACCESS_AT(iread_at_all, c, void *, count_t)                                                     \
    STARTED_ACCESS(iwrite_all, c, const void *, count_t)                                                    \
    STARTED_ACCESS_AT(iwrite_at_all, c, const void *, count_t)
WITH_LARGE_COUNTS(COLLECTIVE_STARTS)
#endif

#define END_OF_ACCESS(name, buffer_t)                                                                       \
    WRAP(MPI_File_##name##_end, (MPI_File fh, buffer_t buf, MPI_Status *status), (fh, buf, status), FH(fh), )
END_OF_ACCESS(read_all, void *)
END_OF_ACCESS(read_at_all, void *)
END_OF_ACCESS(read_ordered, void *)
END_OF_ACCESS(write_all, const void *)
END_OF_ACCESS(write_at_all, const void *)
END_OF_ACCESS(write_ordered, const void *)

/* ---- local ------------------------------------------------------------------------------------------------------ */

WRAP(MPI_File_delete, (const char *filename, MPI_Info info), (filename, info), STRING(filename), )
WRAP(MPI_File_seek, (MPI_File fh, MPI_Offset offset, int whence), (fh, offset, whence), FH(fh) INT(offset) INT(whence), )
WRAP(MPI_File_get_size, (MPI_File fh, MPI_Offset *size), (fh, size), FH(fh), )
WRAP(MPI_File_get_amode, (MPI_File fh, int *amode), (fh, amode), FH(fh), )
WRAP(MPI_File_get_view, (MPI_File fh, MPI_Offset *disp, MPI_Datatype *etype, MPI_Datatype *filetype, char *datarep),
     (fh, disp, etype, filetype, datarep), FH(fh), )
WRAP(MPI_File_get_position, (MPI_File fh, MPI_Offset *offset), (fh, offset), FH(fh), )
WRAP(MPI_File_get_position_shared, (MPI_File fh, MPI_Offset *offset), (fh, offset), FH(fh), )
WRAP(MPI_File_get_byte_offset, (MPI_File fh, MPI_Offset offset, MPI_Offset *disp), (fh, offset, disp), FH(fh) INT(offset), )
WRAP(MPI_File_get_type_extent, (MPI_File fh, MPI_Datatype datatype, MPI_Aint *extent), (fh, datatype, extent),
     FH(fh) TYPE(datatype), )
#if HAVE_4_0
WRAP(MPI_File_get_type_extent_c, (MPI_File fh, MPI_Datatype datatype, MPI_Count *extent), (fh, datatype, extent),
     FH(fh) TYPE(datatype), )
#endif
WRAP(MPI_File_get_atomicity, (MPI_File fh, int *flag), (fh, flag), FH(fh), )
