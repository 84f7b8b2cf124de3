/*
 * Makes a program's standard streams fail: a library to be preloaded (LD_PRELOAD).
 *
 * It reads the environment:
 *
 *   OUTPUT_TAKES=N   standard output takes N bytes, and a later write fails, with ENOSPC
 *   ERRORS_TAKE=N    so does standard error
 *   INPUT_FAILS=1    a read at the end of standard input fails, with EIO
 */

typedef unsigned long size_t;

char *getenv(const char *name);
int *__errno_location(void);
long syscall(long number, ...);

enum { SYSCALL_READ = 0, SYSCALL_WRITE = 1, BAD_DISK = 5, NO_SPACE = 28 };

/* How many bytes standard output and standard error still take, if has_end says that they end. */
static size_t left[3];
static int has_end[3], input_fails;

static void read_limit(int file, const char *name)
{
    const char *number = getenv(name);
    has_end[file] = number != 0;
    for (; number && *number >= '0' && *number <= '9'; number++)
        left[file] = 10 * left[file] + (size_t)(*number - '0');
}

__attribute__((constructor)) static void begin(void)
{
    read_limit(1, "OUTPUT_TAKES");
    read_limit(2, "ERRORS_TAKE");
    input_fails = getenv("INPUT_FAILS") != 0;
}

static long failed(int error)
{
    *__errno_location() = error;
    return -1;
}

long write(int file, const void *bytes, size_t count)
{
    if (file < 1 || file > 2 || !has_end[file])
        return syscall(SYSCALL_WRITE, file, bytes, count);
    if (count && !left[file])
        return failed(NO_SPACE);
    size_t taken = count < left[file] ? count : left[file];
    left[file] -= taken;
    return syscall(SYSCALL_WRITE, file, bytes, taken);
}

long read(int file, void *bytes, size_t count)
{
    long got = syscall(SYSCALL_READ, file, bytes, count);
    return file == 0 && got == 0 && input_fails ? failed(BAD_DISK) : got;
}
