/* poll.h: which polls may be left out.
 *
 * A Test or an Iprobe that finds nothing changes nothing, and neither does a Test of null requests: a text without it is
 * as true as one with it. But what a rank polls for matters. So of each different poll since the last other call
 * MPIMATCH_POLLS are written, and then one a second, as a sign of life. A poll that finds something is always written.
 */
#ifndef MPIMATCH_POLL_H
#define MPIMATCH_POLL_H

#include <stdint.h>

struct thread;

/* The polls of a thread since its last other call. */
#define POLLS_KEPT 256      /* a power of two; half of them are used */
struct polls {
    uint64_t content[POLLS_KEPT];   /* a digest of function and parameters; 0: free */
    long count[POLLS_KEPT];
    int different;
    long dropped;           /* since the last one that was written */
    uint64_t written;       /* when that was */
};

/* Whether the poll that the thread enters may be left out, should it find nothing. */
int may_be_left_out(struct thread *thread);
/* It was left out. */
void poll_left_out(struct polls *polls);
/* It is written: it says how many were left out before. */
void poll_written(struct polls *polls);
/* Another call is written, or a poll that found something: all polls count anew. */
void polls_end(struct polls *polls);

#endif
