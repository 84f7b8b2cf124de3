/*
 * Ends a program at a call that changes files, or refuses the call: a library to be preloaded
 * (LD_PRELOAD).
 *
 * It counts the calls of the kinds that STOP_CALLS has letters of, from 1 on:
 *
 *   o  opening for writing        r  rename        t  setting the length
 *   w  write                      u  unlink        m  setting the mode
 *   s  sync                       l  look (stat)   c  setting the owner
 *   i  read
 *
 * Not counted are reads, writes and looks of the standard streams, and opening and looking at files
 * in /dev or /proc; but those in a folder that the program has opened, /proc/self/fd/N/NAME, are. It
 * reads the environment:
 *
 *   STOP=N          call number N is met: the program ends there, before the call
 *   STOP_ERROR=E    the call is refused instead, with this number for errno
 *   STOP=N-         so is each later call
 *   STOP_HALF=1     the first call that is met, if it is a write, takes half of its bytes
 *   STOP_DONE=1     a call that is refused is made all the same, unless it is a write
 *   STOP_LOG=F      the letter of each call that is met is appended to the file F
 */

typedef unsigned long size_t;

char *getenv(const char *name);
int *__errno_location(void);
long syscall(long number, ...);

enum {
    SYSCALL_READ = 0,
    SYSCALL_WRITE = 1,
    SYSCALL_OPEN = 2,
    SYSCALL_FSYNC = 74,
    SYSCALL_FTRUNCATE = 77,
    SYSCALL_RENAME = 82,
    SYSCALL_UNLINK = 87,
    SYSCALL_FCHMOD = 91,
    SYSCALL_CHOWN = 92,
    SYSCALL_FCHOWN = 93,
    SYSCALL_LCHOWN = 94,
    SYSCALL_EXIT_GROUP = 231,
    SYSCALL_OPENAT = 257,
    SYSCALL_STATX = 332,
    FOR_WRITING = 03,
    TO_APPEND = 01 | 0100 | 02000,
    HERE = -100,
    ENDED = 137
};

static const char *counted;
static long first, seen;
static int goes_on, error, takes_half, is_done;

static long number_of(const char *text)
{
    long number = 0;
    for (; text && *text >= '0' && *text <= '9'; text++)
        number = 10 * number + (*text - '0');
    return number;
}

__attribute__((constructor)) static void begin(void)
{
    const char *stop = getenv("STOP");
    counted = getenv("STOP_CALLS");
    first = number_of(stop);
    for (; stop && *stop; stop++)
        goes_on = *stop == '-';
    error = (int)number_of(getenv("STOP_ERROR"));
    takes_half = number_of(getenv("STOP_HALF")) == 1;
    is_done = error && number_of(getenv("STOP_DONE")) == 1;
}

static void tell(char letter)
{
    const char *name = getenv("STOP_LOG");
    if (name)
        syscall(SYSCALL_WRITE, syscall(SYSCALL_OPEN, name, TO_APPEND, 0600), &letter, 1L);
}

/* Counts a call of this kind. Returns whether it is met. */
static int is_met(char letter)
{
    const char *kind = counted;
    while (kind && *kind && *kind != letter)
        kind++;
    if (!first || !kind || !*kind)
        return 0;
    seen++;
    if (seen < first || (seen > first && !goes_on))
        return 0;
    tell(letter);
    return 1;
}

static int refused(void)
{
    if (!error)
        syscall(SYSCALL_EXIT_GROUP, ENDED);
    *__errno_location() = error;
    return -1;
}

/* Makes a call by its number. If it is met, it is refused, and made only if is_done says so. */
static int answer(int met, long number, long one, long two, long three)
{
    int result = 0;
    if (!met || is_done)
        result = (int)syscall(number, one, two, three);
    return met ? refused() : result;
}

/* Returns what follows a prefix in a name, or null. */
static const char *after(const char *prefix, const char *name)
{
    while (*prefix && *prefix == *name)
        prefix++, name++;
    return *prefix ? 0 : name;
}

static int is_outside(const char *name)
{
    const char *handle = after("/proc/self/fd/", name);
    while (handle && *handle >= '0' && *handle <= '9')
        handle++;
    if (handle && handle[0] == '/' && handle[1])
        return 0;
    return after("/dev/", name) || after("/proc/", name);
}

int openat(int folder, const char *name, int flags, ...)
{
    __builtin_va_list rest;
    __builtin_va_start(rest, flags);
    int mode = __builtin_va_arg(rest, int);
    __builtin_va_end(rest);
    int met = (flags & FOR_WRITING) && !is_outside(name) && is_met('o');
    int file = met && !is_done ? 0 : (int)syscall(SYSCALL_OPENAT, folder, name, flags, mode);
    return met ? refused() : file;
}

int open(const char *name, int flags, ...)
{
    __builtin_va_list rest;
    __builtin_va_start(rest, flags);
    int mode = __builtin_va_arg(rest, int);
    __builtin_va_end(rest);
    return openat(HERE, name, flags, mode);
}

int openat64(int folder, const char *name, int flags, ...)
{
    __builtin_va_list rest;
    __builtin_va_start(rest, flags);
    int mode = __builtin_va_arg(rest, int);
    __builtin_va_end(rest);
    return openat(folder, name, flags, mode);
}

int open64(const char *name, int flags, ...)
{
    __builtin_va_list rest;
    __builtin_va_start(rest, flags);
    int mode = __builtin_va_arg(rest, int);
    __builtin_va_end(rest);
    return openat(HERE, name, flags, mode);
}

long write(int file, const void *bytes, size_t count)
{
    if (file > 2 && is_met('w')) {
        long taken = 0;
        if (takes_half && seen == first)
            taken = syscall(SYSCALL_WRITE, file, bytes, count / 2);
        return error && taken > 0 ? taken : refused();
    }
    return syscall(SYSCALL_WRITE, file, bytes, count);
}

int rename(const char *from, const char *to)
{
    return answer(is_met('r'), SYSCALL_RENAME, (long)from, (long)to, 0);
}

int unlink(const char *name)
{
    return answer(is_met('u'), SYSCALL_UNLINK, (long)name, 0, 0);
}

int fsync(int file)
{
    return answer(is_met('s'), SYSCALL_FSYNC, file, 0, 0);
}

int ftruncate(int file, long length)
{
    return answer(is_met('t'), SYSCALL_FTRUNCATE, file, length, 0);
}

int ftruncate64(int file, long length)
{
    return ftruncate(file, length);
}

int fchmod(int file, unsigned mode)
{
    return answer(is_met('m'), SYSCALL_FCHMOD, file, mode, 0);
}

int chown(const char *name, unsigned owner, unsigned group)
{
    return answer(is_met('c'), SYSCALL_CHOWN, (long)name, owner, group);
}

int fchown(int file, unsigned owner, unsigned group)
{
    return answer(is_met('c'), SYSCALL_FCHOWN, file, owner, group);
}

int lchown(const char *name, unsigned owner, unsigned group)
{
    return answer(is_met('c'), SYSCALL_LCHOWN, (long)name, owner, group);
}

/* A look at a name, or at an open file, whose name is empty. */
int statx(int folder, const char *name, int flags, unsigned mask, void *found)
{
    if ((*name || folder > 2) && !is_outside(name) && is_met('l'))
        return refused();
    return (int)syscall(SYSCALL_STATX, folder, name, flags, mask, found);
}

long read(int file, void *bytes, size_t count)
{
    if (file > 2 && is_met('i'))
        return refused();
    return syscall(SYSCALL_READ, file, bytes, count);
}
