/* site.c: where in the program a call stands.
 *
 *     char* caller=halo+0x1234 (exchange)
 *
 * is module, offset and function; the script `lines` makes file and line of it. The offset is that of the call and not of
 * the return behind it, as addr2line wants it. Where a module comes for the first time, a line
 * `char* module=/home/me/halo` with its path stands before.
 *
 * The line of a site is made once and kept. The calls of a Fortran program come from the bindings of the MPI library:
 * there the stack is walked up to the first frame that is outside of it.
 */
#define _GNU_SOURCE
#include "site.h"
#include "call.h"
#include "line.h"
#include "symbol.h"

#include <dlfcn.h>
#include <link.h>
#include <pthread.h>
#include <stdio.h>
#include <stdlib.h>
#include <string.h>
#include <unistd.h>
#include <unwind.h>

#define SITES 65536         /* a power of two; half of them are used */
#define PATH_ROOM 4096
#define FUNCTION_ROOM 512

struct site {
    uintptr_t address;      /* 0: free */
    const char *line;       /* NULL: in the MPI library, look further up */
};

struct module {
    struct module *next;
    const void *base;
    const char *path, *name;    /* its name is the last part of its path, or the path where two have one name */
};

static struct site sites[SITES];
static int sites_used;
static struct module *modules;
static pthread_mutex_t lock = PTHREAD_MUTEX_INITIALIZER;

/* ---- modules --------------------------------------------------------------------------------------------------- */

static const char *last_part(const char *path)
{
    const char *slash = strrchr(path, '/');
    return slash ? slash + 1 : path;
}

static const void *base_of(const void *address)
{
    Dl_info info;
    return dladdr(address, &info) ? info.dli_fbase : NULL;
}

/* The tracer, the MPI library, and its bindings of Fortran and C++. */
static int is_of_mpi(const Dl_info *info)
{
    static const char *const bindings[] = { "libmpi_", "libmpichf", "libmpichcxx", "libmpifort", "libmpicxx", NULL };
    static const void *tracer, *library;
    if (!tracer) {
        tracer = base_of(&sites);
        library = base_of((const void *)next_function("PMPI_Init"));
    }
    for (int i = 0; bindings[i]; i++)
        if (strncmp(last_part(info->dli_fname), bindings[i], strlen(bindings[i])) == 0)
            return 1;
    return info->dli_fbase == tracer || info->dli_fbase == library;
}

static char *path_of(const Dl_info *info, const struct link_map *map)
{
    char path[PATH_ROOM];
    ssize_t n = -1;
    if (!map->l_name[0])        /* the program itself, whose first argument may say anything */
        n = readlink("/proc/self/exe", path, sizeof path - 1);
    if (n < 0)
        return strdup(info->dli_fname);
    path[n] = 0;
    return strdup(path);
}

/* NULL where memory is refused. */
static const struct module *module_of(const Dl_info *info, const struct link_map *map)
{
    for (struct module *m = modules; m; m = m->next)
        if (m->base == info->dli_fbase)
            return m;
    struct module *made = malloc(sizeof *made);
    char *path = path_of(info, map);
    if (!made || !path) {
        free(made);
        free(path);
        return NULL;
    }
    made->base = info->dli_fbase;
    made->path = path;
    made->name = last_part(path);
    for (struct module *m = modules; m; m = m->next)
        if (strcmp(m->name, made->name) == 0)
            made->name = path;
    made->next = modules;
    modules = made;
    put_string("module", path);
    return made;
}

/* ---- sites ----------------------------------------------------------------------------------------------------- */

/* dladdr knows the functions that a module exports, and a program exports none of its own. */
static void find_function(const struct module *module, unsigned long offset, const Dl_info *info, char *name, size_t room)
{
    if (!symbol_at(module->path, offset, name, room))
        snprintf(name, room, "%s", info->dli_sname ? info->dli_sname : "");
}

/* The line of an address; NULL where it is in the MPI library, and empty where memory is refused. */
static const char *line_of(uintptr_t address)
{
    Dl_info info;
    struct link_map *map = NULL;
    char line[PATH_ROOM + FUNCTION_ROOM + 64], function[FUNCTION_ROOM];
    uintptr_t call = address - 1;       /* it stands before the address to which it returns */
    if (!dladdr1((void *)call, &info, (void **)&map, RTLD_DL_LINKMAP) || !map)
        snprintf(line, sizeof line, "char* caller=0x%lx\n", (unsigned long)call);
    else if (is_of_mpi(&info))
        return NULL;
    else {
        const struct module *module = module_of(&info, map);
        unsigned long offset = call - map->l_addr;
        if (!module)
            return "";
        find_function(module, offset, &info, function, sizeof function);
        snprintf(line, sizeof line, function[0] ? "char* caller=%s+0x%lx (%s)\n" : "char* caller=%s+0x%lx\n",
                 module->name, offset, function);
    }
    const char *kept = strdup(line);
    return kept ? kept : "";
}

/* Whether the site is kept; then its line is that. Sites are read without the lock: an address is stored after its line,
 * and stays. */
static int is_kept(uintptr_t address, const char **line)
{
    for (size_t i = address % SITES;; i = (i + 1) % SITES) {
        uintptr_t there = __atomic_load_n(&sites[i].address, __ATOMIC_ACQUIRE);
        if (there == address) {
            *line = sites[i].line;
            return 1;
        }
        if (!there)
            return 0;
    }
}

static void keep(uintptr_t address, const char *line)
{
    size_t i = address % SITES;
    while (sites[i].address)
        i = (i + 1) % SITES;
    sites[i].line = line;
    __atomic_store_n(&sites[i].address, address, __ATOMIC_RELEASE);
    sites_used++;
}

static const char *site_line(uintptr_t address)
{
    const char *line;
    if (is_kept(address, &line))
        return line;
    pthread_mutex_lock(&lock);
    if (!is_kept(address, &line)) {
        /* A program with more sites than are kept makes code as it runs: the others have no line. */
        line = "";
        if (sites_used < SITES / 2) {
            line = line_of(address);
            keep(address, line);
        }
    }
    pthread_mutex_unlock(&lock);
    return line;
}

static _Unwind_Reason_Code look_at_frame(struct _Unwind_Context *context, void *found)
{
    uintptr_t address = _Unwind_GetIP(context);
    if (!address)
        return _URC_END_OF_STACK;
    const char *line = site_line(address);
    if (!line)
        return _URC_NO_REASON;
    *(const char **)found = line;
    return _URC_END_OF_STACK;
}

void put_site(const void *address)
{
    const char *line = site_line((uintptr_t)address);
    if (!line)
        _Unwind_Backtrace(look_at_frame, &line);
    if (line)
        put(line);
}
