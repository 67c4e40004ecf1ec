/* Laid before a program by LD_PRELOAD: refuses one of its requests to the system, and notes what it met.
 *
 * REFUSE=KIND:N:HOW names the request, the Nth of its kind from 1 on (0: none), and how it is refused; REFUSE_SEEN
 * names a file of the size of `struct seen`, which gets what was met.
 * After REFUSE_SECONDS the program ends by a signal.
 *
 *     memory    malloc, realloc of the program itself        fail
 *     system    malloc, realloc, calloc of the C library     fail
 *     thread    pthread_create                               fail; each: of every one
 *     net       socket, bind, listen, connect, accept4       fail
 *     open      open                                         fail
 *     read, write, recv, send                                fail, or short: one byte is moved; each: of every one
 *     stranger                                               N others connect before the program does
 *
 * REFUSE=KIND:N,N,..:HOW with REFUSE_FORKS refuses each of these requests in a process of its own: the program forks
 * there, and once the fork has ended, which was refused, the program goes on as without a refusal. So what comes before
 * a request is done once for all of them. The forks write to OUTS and ERRS, one behind the other; of each of them LOG
 * gets what was met, up to the end of its stack. A fork has none of the other threads, so a program that has started one
 * is refused nothing more.
 *
 * It needs no headers, so that the kit's clang can compile it, which has none. */
typedef unsigned long word;
typedef long ssize;

enum { STACK = 4096, PATHS = 64, PATH = 256, AT_PHDR = 3, PHDR_OFFSET = 64, PROGRAM = 1 << 24 };
enum { AF_INET = 2, SOCK_STREAM = 1, O_RDWR = 2, PROT_READ_WRITE = 3, MAP_SHARED = 1, SEEK_SET = 0, SEEK_CUR = 1 };
enum { EINTR = 4, EIO = 5, EAGAIN = 11, ENOMEM = 12, EMFILE = 24 };
/* (descriptors that no program here comes to) */
enum { LOG = 200, OUTS, ERRS };
enum kind { MEMORY, SYSTEM, THREAD, NET, OPEN, READ, WRITE, RECV, SEND, STRANGER, KINDS };

static const char *const names[KINDS] = {"memory:", "system:", "thread:", "net:", "open:", "read:", "write:", "recv:", "send:", "stranger:"};

struct seen {
    word base;               /* where the program lies */
    word met[KINDS];         /* how many requests of each kind came */
    word before_open;        /* how many of them for memory came before the first file was opened */
    word refused;            /* which one was refused; 0: none */
    word moved;              /* how many bytes its file had moved before */
    word status;             /* how its fork ended, as waitpid tells it */
    word said[2];            /* how much the program had written to standard output and error when it forked */
    word ends[2];            /* where OUTS and ERRS end behind what the fork wrote */
    char path[PATH];         /* the file, as it was opened; of another descriptor its number */
    word words;              /* how many words of the stack follow: first the address to which the call returns */
    word stack[STACK];
};

void *dlsym(void *handle, const char *name);
char *getenv(const char *name);
int open(const char *path, int flags, ...);
void *mmap(void *at, word size, int protection, int flags, int file, long offset);
word strtoul(const char *text, char **end, int base);
int strncmp(const char *a, const char *b, word size);
char *strncpy(char *to, const char *from, word size);
word strlen(const char *text);
int *__errno_location(void);
word getauxval(word type);
unsigned alarm(unsigned seconds);
int fork(void);
int waitpid(int process, int *status, int options);
long lseek(int file, long offset, int from);
int dup2(int from, int to);
word pthread_self(void);
void *__libc_malloc(word size);
void *__libc_realloc(void *old, word size);
void *__libc_calloc(word count, word size);
extern void *__libc_stack_end;

static struct seen nothing, *seen = &nothing;
static enum kind kind = KINDS;
static const char *how = "";
static char *more = "";
static word wanted;
static unsigned seconds;
static int forks, opened;
/* what the program opened, by descriptor, and one more than the highest of these */
static struct { char path[PATH]; word moved; } files[PATHS];
static int top = 3;

#define NEXT(name) ((__typeof__(&name))dlsym((void *)-1, #name))
int close(int file);
ssize write(int file, const void *from, word size);

/* The number of the request that is refused next; behind the last one 0. */
static void next_wanted(void) {
    wanted = strtoul(more, &more, 10);
    if (*more == ',') more++;
}

__attribute__((constructor)) static void begin(void) {
    const char *asked = getenv("REFUSE"), *file = getenv("REFUSE_SEEN"), *limit = getenv("REFUSE_SECONDS");
    if (!asked || !file) return;
    enum kind found = 0;
    while (found < KINDS && strncmp(asked, names[found], strlen(names[found]))) found++;
    more = (char *)asked;
    while (*more && *more != ':') more++;
    if (*more) more++;
    how = more;
    while (*how && *how != ':') how++;
    if (*how) how++;
    next_wanted();
    forks = getenv("REFUSE_FORKS") != 0;
    int descriptor = open(file, O_RDWR);
    void *at = mmap(0, sizeof(struct seen), PROT_READ_WRITE, MAP_SHARED, descriptor, 0);
    if (at == (void *)-1) return;
    NEXT(close)(descriptor);
    struct seen *shared = at;
    shared->base = getauxval(AT_PHDR) - PHDR_OFFSET;
    opened = 0;
    top = 3;
    if (limit) alarm(seconds = strtoul(limit, 0, 10));
    kind = found;
    seen = shared;
}

/* The stack of this call, up to its end. */
static void note_stack(void *returns, void *frame) {
    word *from = frame, self = pthread_self(), end = self > (word)frame ? self : (word)__libc_stack_end;
    seen->stack[0] = (word)returns;
    seen->words = 1;
    while ((word)from < end && seen->words < STACK) seen->stack[seen->words++] = *from++;
}

/* Forks, and gives whether this is the fork. It has its own streams, and reads from where the program is; the program
 * notes how it ended, and goes on from where it was. */
static int is_fork(void) {
    static struct seen own;
    long at[PATHS];
    for (int n = 0; n < top; n++) at[n] = lseek(n, 0, SEEK_CUR);
    int process = fork(), status = 0;
    if (process == 0) {
        dup2(OUTS, 1);
        dup2(ERRS, 2);
        alarm(seconds);
        kind = KINDS;
        seen = &own;
        return 1;
    }
    while (waitpid(process, &status, 0) < 0 && *__errno_location() == EINTR);
    alarm(seconds);
    for (int n = 0; n < top; n++) if (at[n] >= 0) lseek(n, at[n], SEEK_SET);
    seen->status = status;
    for (int n = 0; n < 2; n++) {
        seen->said[n] = at[n + 1];
        seen->ends[n] = lseek(OUTS + n, 0, SEEK_CUR);
    }
    NEXT(write)(LOG, seen, (char *)(seen->stack + seen->words) - (char *)seen);
    seen->refused = 0;
    return 0;
}

/* Whether this request, of a file or of a path, is the one that is refused. */
static int meets(enum kind of, int file, const char *path, void *returns, void *frame) {
    word at = __atomic_add_fetch(&seen->met[of], 1, __ATOMIC_SEQ_CST);
    if (!opened) seen->before_open = seen->met[MEMORY];
    if (of != kind) return 0;
    if (at != wanted) return *how == 'e';
    if (forks && seen->met[THREAD]) return 0;
    int is_known = file >= 0 && file < PATHS;
    seen->refused = at;
    seen->moved = is_known ? files[file].moved : 0;
    strncpy(seen->path, path ? path : is_known ? files[file].path : "", PATH - 1);
    if (is_known && file < 3) seen->path[0] = '0' + file;
    note_stack(returns, frame);
    if (!forks) return 1;
    next_wanted();
    return is_fork();
}

#define MEETS(kind, file, path) meets(kind, file, path, __builtin_return_address(0), __builtin_frame_address(0))
#define FAIL(error, answer) do { *__errno_location() = error; return answer; } while (0)

static enum kind asker(void *returns) {
    return seen != &nothing && (word)returns - seen->base < PROGRAM ? MEMORY : SYSTEM;
}

void *malloc(word size) {
    if (MEETS(asker(__builtin_return_address(0)), -1, 0)) FAIL(ENOMEM, 0);
    return __libc_malloc(size);
}

void *realloc(void *old, word size) {
    if (MEETS(asker(__builtin_return_address(0)), -1, 0)) FAIL(ENOMEM, 0);
    return __libc_realloc(old, size);
}

void *calloc(word count, word size) {
    if (MEETS(asker(__builtin_return_address(0)), -1, 0)) FAIL(ENOMEM, 0);
    return __libc_calloc(count, size);
}

int pthread_create(word *thread, void *attributes, void *(*start)(void *), void *with) {
    if (MEETS(THREAD, -1, 0)) return EAGAIN;
    return NEXT(pthread_create)(thread, attributes, start, with);
}

int socket(int domain, int type, int protocol) {
    if (MEETS(NET, -1, 0)) FAIL(EMFILE, -1);
    return NEXT(socket)(domain, type, protocol);
}

int bind(int file, void *address, unsigned size) {
    if (MEETS(NET, -1, 0)) FAIL(EIO, -1);
    return NEXT(bind)(file, address, size);
}

int listen(int file, int backlog) {
    if (MEETS(NET, -1, 0)) FAIL(EIO, -1);
    return NEXT(listen)(file, backlog);
}

/* (a stranger is the process itself, which connects to where the program is about to, and says nothing) */
int connect(int file, void *address, unsigned size) {
    if (MEETS(NET, -1, 0)) FAIL(EIO, -1);
    for (word n = 0; kind == STRANGER && n < wanted; n++)
        NEXT(connect)(NEXT(socket)(AF_INET, SOCK_STREAM, 0), address, size);
    return NEXT(connect)(file, address, size);
}

int accept4(int file, void *address, unsigned *size, int flags) {
    if (MEETS(NET, -1, 0)) FAIL(EIO, -1);
    return NEXT(accept4)(file, address, size, flags);
}

/* (the library's own `open` of the file of what was seen comes before `seen` is set) */
int open(const char *path, int flags, ...) {
    __builtin_va_list rest;
    __builtin_va_start(rest, flags);
    unsigned mode = __builtin_va_arg(rest, unsigned);
    __builtin_va_end(rest);
    opened = 1;
    if (MEETS(OPEN, -1, path)) FAIL(EMFILE, -1);
    int file = NEXT(open)(path, flags, mode);
    if (file >= 0 && file < PATHS) {
        strncpy(files[file].path, path, PATH - 1);
        files[file].moved = 0;
        if (file >= top) top = file + 1;
    }
    return file;
}

static ssize moved(int file, ssize count) {
    if (count > 0 && file >= 0 && file < PATHS) files[file].moved += count;
    return count;
}

/* A call that moves bytes: refused, shortened to one byte, or as it is. */
#define MOVES(kind, call) do {                           \
        if (MEETS(kind, file, 0)) {                         \
            if (*how == 'f') FAIL(EIO, -1);              \
            size = size ? 1 : 0;                         \
        }                                                \
        return moved(file, call);                        \
    } while (0)

ssize read(int file, void *to, word size) { MOVES(READ, NEXT(read)(file, to, size)); }
ssize write(int file, const void *from, word size) { MOVES(WRITE, NEXT(write)(file, from, size)); }
ssize __write(int file, const void *from, word size) { MOVES(WRITE, NEXT(write)(file, from, size)); }
ssize recv(int file, void *to, word size, int flags) { MOVES(RECV, NEXT(recv)(file, to, size, flags)); }
ssize send(int file, const void *from, word size, int flags) { MOVES(SEND, NEXT(send)(file, from, size, flags)); }
