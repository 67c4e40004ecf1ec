/* line.c: the lines of a call.
 *
 * They are made by hand and not by printf, which alone would take longer than a small message does.
 */
#include "line.h"
#include "output.h"
#include "thread.h"

#include <stdlib.h>
#include <string.h>
#include <time.h>

/* A reader refuses a longer line (docs/formats/texts.md, "Limits"). */
#define LONGEST_LINE 65536
/* A stamp line is shorter. */
#define LONGEST_STAMP 256
#define LONGEST_STRING 1000

/* Where n more bytes can be put; NULL where memory is refused. */
static char *room_for(struct lines *lines, size_t n)
{
    if (lines->end + n > lines->room) {
        size_t room = 2 * lines->room + n + 2 * FRONT_ROOM;
        char *bytes = realloc(lines->bytes, room);
        if (!bytes) {
            output_ends("no memory for a line");
            return NULL;
        }
        lines->bytes = bytes;
        lines->room = room;
    }
    return lines->bytes + lines->end;
}

static void put_bytes(const char *bytes, size_t n)
{
    struct lines *lines = &this_thread()->lines;
    char *to = room_for(lines, n);
    if (to) {
        memcpy(to, bytes, n);
        lines->end += n;
    }
}

void put(const char *bytes)
{
    put_bytes(bytes, strlen(bytes));
}

/* Writes the digits, and answers where they end. */
static char *digits(char *to, long long value)
{
    char reversed[24];
    int n = 0;
    unsigned long long rest = value < 0 ? 0ULL - (unsigned long long)value : (unsigned long long)value;
    do
        reversed[n++] = '0' + rest % 10;
    while (rest /= 10);
    if (value < 0)
        *to++ = '-';
    while (n > 0)
        *to++ = reversed[--n];
    return to;
}

void put_number(long long value)
{
    char number[24];
    put_bytes(number, digits(number, value) - number);
}

void put_note(const char *note)
{
    put(" (");
    put(note);
    put(")");
}

/* ---- stamps ---------------------------------------------------------------------------------------------------- */

static char *copied(char *to, const char *bytes)
{
    size_t n = strlen(bytes);
    memcpy(to, bytes, n);
    return to + n;
}

/* Seconds with nine decimals. */
static char *seconds(char *to, const struct timespec *t)
{
    long rest = t->tv_nsec;
    to = digits(to, t->tv_sec);
    *to = '.';
    for (int i = 9; i > 0; i--, rest /= 10)
        to[i] = '0' + rest % 10;
    return to + 10;
}

static size_t stamp(char *to, const char *function, const char *verb, int thread)
{
    struct timespec wall, cpu;
    char *p = to;
    clock_gettime(CLOCK_REALTIME, &wall);
    clock_gettime(CLOCK_THREAD_CPUTIME_ID, &cpu);
    p = copied(p, function);
    p = copied(p, verb);
    p = seconds(p, &wall);
    p = copied(p, ", cputime ");
    p = seconds(p, &cpu);
    p = copied(p, " seconds in thread ");
    p = digits(p, thread);
    p = copied(p, ".\n");
    return p - to;
}

uint64_t now(void)
{
    struct timespec t;
    clock_gettime(CLOCK_MONOTONIC, &t);
    return t.tv_sec * 1000000000ULL + t.tv_nsec;
}

int begin_lines(struct lines *lines)
{
    lines->start = lines->end = 0;
    if (!room_for(lines, FRONT_ROOM + LONGEST_STAMP))
        return 0;
    lines->start = lines->end = FRONT_ROOM;
    return 1;
}

/* This line stands in front of the parameters and is made after them, so that in the file the times of all threads rise. */
void stamp_entry(struct lines *lines, const char *function, int thread)
{
    char line[LONGEST_STAMP];
    size_t n = stamp(line, function, " entering at walltime ", thread);
    lines->start = FRONT_ROOM - n;
    memcpy(lines->bytes + lines->start, line, n);
}

void stamp_return(struct lines *lines, const char *function, int thread)
{
    char *to = room_for(lines, LONGEST_STAMP);
    if (to)
        lines->end += stamp(to, function, " returning at walltime ", thread);
}

/* ---- parameters ------------------------------------------------------------------------------------------------ */

static void put_noted(const char *name, long long value, const char *note)
{
    put("int ");
    put(name);
    put("=");
    put_number(value);
    if (note)
        put_note(note);
    put("\n");
}

void put_int(const char *name, long long value)
{
    put_noted(name, value, NULL);
}

void put_rank(const char *name, int value)
{
    if (value == MPI_ANY_SOURCE)
        put_noted(name, -1, "MPI_ANY_SOURCE");
    else if (value == MPI_PROC_NULL)
        put_noted(name, -2, "MPI_PROC_NULL");
    else if (value == MPI_ROOT)
        put_noted(name, -3, "MPI_ROOT");
    else
        put_noted(name, value, NULL);
}

void put_tag(const char *name, int value)
{
    if (value == MPI_ANY_TAG)
        put_noted(name, -1, "MPI_ANY_TAG");
    else
        put_noted(name, value, NULL);
}

void put_color(const char *name, int value)
{
    put_noted(name, value, value == MPI_UNDEFINED ? "MPI_UNDEFINED" : NULL);
}

void put_string(const char *name, const char *value)
{
    char shown[LONGEST_STRING];
    size_t n = 0;
    for (; value && value[n] && n < sizeof shown; n++)
        shown[n] = value[n] < ' ' || value[n] > '~' ? '?' : value[n];
    put("char* ");
    put(name);
    put("=");
    put_bytes(shown, n);
    put("\n");
}

size_t begin_line(void)
{
    return this_thread()->lines.end;
}

/* A parameter that is missing tells nothing; a line that is too long would cost the whole text. */
int end_line(size_t begin)
{
    struct lines *lines = &this_thread()->lines;
    put("\n");
    if (lines->end - begin <= LONGEST_LINE)
        return 1;
    lines->end = begin;
    return 0;
}

#define PUT_LIST(name, n, values)                                                                           \
    do {                                                                                                    \
        if ((n) < 0 || !(values))                                                                           \
            return;                                                                                         \
        size_t line = begin_line();                                                                         \
        put("int ");                                                                                        \
        put(name);                                                                                          \
        put("=[");                                                                                          \
        put_number(n);                                                                                      \
        put("] {");                                                                                         \
        for (int i = 0; i < (n); i++) {                                                                     \
            if (i)                                                                                          \
                put(", ");                                                                                  \
            put_number((values)[i]);                                                                        \
        }                                                                                                   \
        put("}");                                                                                           \
        end_line(line);                                                                                     \
    } while (0)

void put_ints(const char *name, int n, const int *values)
{
    PUT_LIST(name, n, values);
}

void put_counts(const char *name, int n, const MPI_Count *values)
{
    PUT_LIST(name, n, values);
}
