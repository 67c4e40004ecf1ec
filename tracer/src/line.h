/* line.h: the lines of a call, as docs/formats/texts.md has them. */
#ifndef MPIMATCH_LINE_H
#define MPIMATCH_LINE_H

#include "mpi_names.h"

#include <stddef.h>
#include <stdint.h>

/* The bytes from start to end are lines; what lies before start is room for the stamp of the entry, and for what the
 * output puts in front of it. */
struct lines {
    char *bytes;
    size_t start, end, room;
};

/* Room in front of the lines. */
#define FRONT_ROOM 8192

/* False where memory is refused; the text ends then. */
int begin_lines(struct lines *lines);
void stamp_entry(struct lines *lines, const char *function, int thread);
void stamp_return(struct lines *lines, const char *function, int thread);

/* All of these add to the lines of the call in which this thread is. */
void put(const char *bytes);
void put_number(long long value);
void put_note(const char *note);

void put_int(const char *name, long long value);
/* The constants of MPI differ from library to library, so these have their names beside them, and numbers of their own. */
void put_rank(const char *name, int value);
void put_tag(const char *name, int value);
void put_color(const char *name, int value);
/* What isn't printable is a question mark. */
void put_string(const char *name, const char *value);

/* A list of numbers; none where n is negative. */
#define put_list(name, n, values) _Generic((values),                                                        \
    int *: put_ints, const int *: put_ints, MPI_Count *: put_counts, const MPI_Count *: put_counts)(name, n, values)
void put_ints(const char *name, int n, const int *values);
void put_counts(const char *name, int n, const MPI_Count *values);

/* Around a line that may be too long for a reader. end_line is false where it was, and then it is taken back. */
size_t begin_line(void);
int end_line(size_t begin);

/* Nanoseconds of a clock that only rises. */
uint64_t now(void);

#endif
