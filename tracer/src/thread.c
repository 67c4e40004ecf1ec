/* thread.c: what is kept for each thread that calls MPI. */
#include "thread.h"
#include "output.h"

#include <pthread.h>
#include <stdlib.h>

/* By this model an access is one instruction; a library that is preloaded may ask for it. */
static __thread struct thread *mine __attribute__((tls_model("initial-exec")));
static pthread_key_t key;
static pthread_once_t key_is_made = PTHREAD_ONCE_INIT;
static int numbered;

static void thread_ends(void *ended)
{
    struct thread *thread = ended;
    mine = NULL;
    free(thread->lines.bytes);
    free(thread->statuses);
    free(thread->handles);
    free(thread);
}

static void make_key(void)
{
    pthread_key_create(&key, thread_ends);
}

struct thread *this_thread(void)
{
    if (!mine) {
        pthread_once(&key_is_made, make_key);
        struct thread *made = calloc(1, sizeof *made);
        if (!made) {
            output_ends("no memory for a thread");
            return NULL;
        }
        made->number = -1;
        pthread_setspecific(key, made);
        mine = made;
    }
    return mine;
}

int several_threads(void)
{
    return __atomic_load_n(&numbered, __ATOMIC_RELAXED) > 1;
}

void number_thread(struct thread *thread)
{
    if (thread->number < 0)
        thread->number = __atomic_fetch_add(&numbered, 1, __ATOMIC_RELAXED);
}
