/* call.c: a call of the program, from its entry to its return. */
#define _GNU_SOURCE
#include "call.h"
#include "output.h"
#include "site.h"
#include "thread.h"

#include <dlfcn.h>
#include <pthread.h>
#include <stdio.h>
#include <stdlib.h>

void *next_function(const char *name)
{
    void *function = dlsym(RTLD_NEXT, name);
    if (!function) {
        /* Built for another MPI library than the program's: there is nothing that could be called. */
        fprintf(stderr, "mpimatch tracer: the MPI library of this program has no %s; build the tracer with its mpicc\n", name);
        abort();
    }
    return function;
}

int enters(const char *function, const void *site)
{
    struct thread *thread = this_thread();
    if (!thread || thread->depth++ > 0)
        return 0;
    thread->told = 0;
    if (!output_is_open() && !output_opens())
        return 0;
    if (!begin_lines(&thread->lines))
        return 0;
    number_thread(thread);
    thread->told = 1;
    thread->held_back = 0;
    thread->function = function;
    thread->site = site;
    return 1;
}

/* The lines of all threads stand in the order of their times, so the time is taken under this lock. */
static pthread_mutex_t order = PTHREAD_MUTEX_INITIALIZER;

static void write_entry(struct thread *thread)
{
    pthread_mutex_lock(&order);
    stamp_entry(&thread->lines, thread->function, thread->number);
    output_write(&thread->lines);
    pthread_mutex_unlock(&order);
    begin_lines(&thread->lines);
}

static void write_return(struct thread *thread)
{
    pthread_mutex_lock(&order);
    stamp_return(&thread->lines, thread->function, thread->number);
    output_write(&thread->lines);
    pthread_mutex_unlock(&order);
}

void entered(void)
{
    struct thread *thread = this_thread();
    polls_end(&thread->polls);
    put_site(thread->site);
    write_entry(thread);
}

void entered_poll(void)
{
    struct thread *thread = this_thread();
    put_site(thread->site);
    thread->held_back = may_be_left_out(thread);
    if (thread->held_back)
        stamp_entry(&thread->lines, thread->function, thread->number);
    else {
        poll_written(&thread->polls);
        write_entry(thread);
    }
}

static void leave(struct thread *thread)
{
    thread->told = 0;
    thread->depth--;
}

int returns(int code)
{
    struct thread *thread = this_thread();
    if (!thread || thread->depth == 0)  /* it had no memory to enter */
        return 0;
    if (thread->depth > 1) {
        thread->depth--;
        return 0;
    }
    if (!thread->told || !output_is_open()) {
        leave(thread);
        return 0;
    }
    if (code != MPI_SUCCESS)
        put_int("error", code);
    return 1;
}

void returned(void)
{
    struct thread *thread = this_thread();
    write_return(thread);
    leave(thread);
}

void returned_poll(int found)
{
    struct thread *thread = this_thread();
    if (thread->held_back && !found) {
        poll_left_out(&thread->polls);
        leave(thread);
        return;
    }
    if (found)
        polls_end(&thread->polls);
    returned();
}
