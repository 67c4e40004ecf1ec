/* handle.c: the numbers that stand for handles in a text. */
#include "handle.h"
#include "output.h"

#include <pthread.h>
#include <stdlib.h>

struct table {
    struct handle **buckets;
    size_t size, used;          /* size is 0 or a power of two */
    int fresh;                  /* the least number that was never given */
    int *freed;                 /* a heap of numbers, the least one first */
    int freed_used, freed_room;
};

static struct table tables[SORTS];
static pthread_mutex_t lock = PTHREAD_MUTEX_INITIALIZER;
static unsigned long lists;

/* Stands for any handle where memory is refused. The text ends there, so nobody sees its number. */
static struct handle nobody;

/* ---- numbers --------------------------------------------------------------------------------------------------- */

static void swap(int *a, int *b)
{
    int c = *a;
    *a = *b;
    *b = c;
}

static int take_number(struct table *t)
{
    if (t->freed_used == 0)
        return t->fresh++;
    int least = t->freed[0];
    t->freed[0] = t->freed[--t->freed_used];
    for (int i = 0;;) {
        int child = 2 * i + 1;
        if (child + 1 < t->freed_used && t->freed[child + 1] < t->freed[child])
            child++;
        if (child >= t->freed_used || t->freed[i] <= t->freed[child])
            return least;
        swap(&t->freed[i], &t->freed[child]);
        i = child;
    }
}

static void free_number(struct table *t, int number)
{
    if (t->freed_used == t->freed_room) {
        int room = 2 * t->freed_room + 64;
        int *freed = realloc(t->freed, room * sizeof *freed);
        if (!freed)
            return;             /* the number is never given again */
        t->freed = freed;
        t->freed_room = room;
    }
    int i = t->freed_used++;
    t->freed[i] = number;
    for (; i > 0 && t->freed[(i - 1) / 2] > t->freed[i]; i = (i - 1) / 2)
        swap(&t->freed[(i - 1) / 2], &t->freed[i]);
}

/* ---- tables ---------------------------------------------------------------------------------------------------- */

static struct handle **bucket(struct table *t, uintptr_t key)
{
    uint64_t h = (uint64_t)key * 0x9E3779B97F4A7C15ULL;
    return &t->buckets[(h >> 32) & (t->size - 1)];
}

/* To the end, so that of two with one key the older one stands first. */
static void append(struct table *t, struct handle *handle)
{
    struct handle **end = bucket(t, handle->key);
    while (*end)
        end = &(*end)->next;
    handle->next = NULL;
    *end = handle;
}

static int grow(struct table *t)
{
    size_t size = t->size ? 4 * t->size : 256, old = t->size;
    struct handle **from = t->buckets, **to = calloc(size, sizeof *to);
    if (!to)
        return 0;
    t->buckets = to;
    t->size = size;
    for (size_t i = 0; i < old; i++)
        for (struct handle *h = from[i], *next; h; h = next) {
            next = h->next;
            append(t, h);
        }
    free(from);
    return 1;
}

static struct handle *add(struct table *t, uintptr_t key)
{
    struct handle *made = t->used < t->size || grow(t) ? calloc(1, sizeof *made) : NULL;
    if (!made) {
        output_ends("no memory for a handle");
        return &nobody;
    }
    made->key = key;
    made->uses = 1;
    append(t, made);
    t->used++;
    return made;
}

static struct handle *add_numbered(struct table *t, uintptr_t key)
{
    struct handle *made = add(t, key);
    if (made != &nobody)
        made->number = take_number(t);
    return made;
}

static struct handle *find(struct table *t, uintptr_t key)
{
    struct handle *h = t->size ? *bucket(t, key) : NULL;
    while (h && h->key != key)
        h = h->next;
    return h;
}

static void take_out(struct table *t, struct handle *handle)
{
    struct handle **p = bucket(t, handle->key);
    while (*p && *p != handle)
        p = &(*p)->next;
    if (!*p)
        return;
    *p = handle->next;
    t->used--;
    free_number(t, handle->number);
    free(handle);
}

/* ---- handles --------------------------------------------------------------------------------------------------- */

void number_from(enum sort sort, int first)
{
    tables[sort].fresh = first;
}

void name_constant(enum sort sort, uintptr_t key, int number, const char *name)
{
    if (find(&tables[sort], key))       /* types that a compiler lacks are one null handle */
        return;
    struct handle *made = add(&tables[sort], key);
    made->number = number;
    made->name = name;
    made->given = 1;
}

struct handle *handle_known(enum sort sort, uintptr_t key)
{
    pthread_mutex_lock(&lock);
    struct handle *h = find(&tables[sort], key);
    pthread_mutex_unlock(&lock);
    return h;
}

struct handle *handle_of(enum sort sort, uintptr_t key)
{
    pthread_mutex_lock(&lock);
    struct handle *h = find(&tables[sort], key);
    if (!h)
        h = add_numbered(&tables[sort], key);
    pthread_mutex_unlock(&lock);
    return h;
}

struct handle *handle_given(enum sort sort, uintptr_t key)
{
    pthread_mutex_lock(&lock);
    struct handle *h = find(&tables[sort], key);
    if (!h)
        h = add_numbered(&tables[sort], key);
    else if (sort == GROUPS)
        h->uses++;
    h->given = 1;
    pthread_mutex_unlock(&lock);
    return h;
}

void handle_freed(enum sort sort, struct handle *handle)
{
    if (!handle || handle == &nobody || handle->name)
        return;
    pthread_mutex_lock(&lock);
    if (--handle->uses <= 0)
        take_out(&tables[sort], handle);
    pthread_mutex_unlock(&lock);
}

struct handle *request_given(MPI_Request request, const void *at)
{
    pthread_mutex_lock(&lock);
    struct handle *h = add_numbered(&tables[REQUESTS], KEY(request));
    h->at = at;
    h->given = 1;
    pthread_mutex_unlock(&lock);
    return h;
}

unsigned long new_list(void)
{
    return __atomic_add_fetch(&lists, 1, __ATOMIC_RELAXED);
}

struct handle *request_at(MPI_Request request, const void *at, unsigned long list)
{
    pthread_mutex_lock(&lock);
    struct table *t = &tables[REQUESTS];
    uintptr_t key = KEY(request);
    struct handle *best = NULL;
    for (struct handle *h = t->size ? *bucket(t, key) : NULL; h; h = h->next) {
        if (h->key != key || (h->listed == list && !h->name))
            continue;
        if (!best || h->at == at)
            best = h;
        if (h->name || h->at == at)
            break;
    }
    if (!best)
        best = add_numbered(t, key);    /* of a function that the tracer doesn't know */
    best->listed = list;
    pthread_mutex_unlock(&lock);
    return best;
}

void put_handle(const char *type, const char *name, const struct handle *handle)
{
    put(type);
    put(" ");
    put(name);
    put("=");
    put_number(handle->number);
    if (handle->name)
        put_note(handle->name);
    put("\n");
}
