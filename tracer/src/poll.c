/* poll.c: which polls may be left out. */
#include "poll.h"
#include "line.h"
#include "thread.h"

#include <stdlib.h>
#include <string.h>

#define DEFAULT_POLLS 100
#define SIGN_OF_LIFE 1000000000ULL      /* nanoseconds */
#define ALL_POLLS -1

static long limit_of(const char *words)
{
    char *end = NULL;
    long n = words && *words ? strtol(words, &end, 10) : DEFAULT_POLLS;
    if (end && (*end || n < 0))
        return ALL_POLLS;               /* "all", say */
    /* By one alone nobody could see that a rank polls. */
    return n < 2 ? 2 : n;
}

static long limit(void)
{
    static long kept;                   /* 0: not asked yet */
    if (kept == 0)
        kept = limit_of(getenv("MPIMATCH_POLLS"));
    return kept;
}

/* FNV-1a over the function and its parameters. */
static uint64_t content_of(const struct thread *thread)
{
    uint64_t h = 1469598103934665603ULL;
    for (const char *s = thread->function; *s; s++)
        h = (h ^ (unsigned char)*s) * 1099511628211ULL;
    for (size_t i = thread->lines.start; i < thread->lines.end; i++)
        h = (h ^ (unsigned char)thread->lines.bytes[i]) * 1099511628211ULL;
    return h ? h : 1;
}

int may_be_left_out(struct thread *thread)
{
    struct polls *polls = &thread->polls;
    /* The entry of a poll that is held back is written at its return: too late among the lines of other threads. */
    if (limit() == ALL_POLLS || several_threads())
        return 0;
    uint64_t content = content_of(thread);
    size_t i = content % POLLS_KEPT;
    while (polls->content[i] && polls->content[i] != content)
        i = (i + 1) % POLLS_KEPT;
    if (!polls->content[i]) {
        if (polls->different >= POLLS_KEPT / 2)
            return 0;
        polls->content[i] = content;
        polls->count[i] = 0;
        polls->different++;
    }
    if (polls->count[i] < limit()) {
        polls->count[i]++;
        return 0;
    }
    return now() - polls->written < SIGN_OF_LIFE;
}

void poll_left_out(struct polls *polls)
{
    polls->dropped++;
}

static void put_dropped(struct polls *polls)
{
    if (polls->dropped)
        put_int("polls_dropped", polls->dropped);
    polls->dropped = 0;
}

void poll_written(struct polls *polls)
{
    put_dropped(polls);
    polls->written = now();
}

void polls_end(struct polls *polls)
{
    put_dropped(polls);
    if (polls->different) {
        memset(polls->content, 0, sizeof polls->content);
        polls->different = 0;
    }
}
