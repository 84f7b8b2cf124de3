/*
 * Refuses a program's requests for memory: a library to be preloaded (LD_PRELOAD).
 *
 * It counts the calls of malloc, calloc, realloc and their aligned forms, from 1 on, and reads the
 * environment:
 *
 *   REFUSE=N          call number N is refused: it returns NULL, with ENOMEM
 *   REFUSE=N-         so is each later call
 *   REFUSE_LATE=1     calls before the program's first write to standard output are not counted
 *   REFUSE_COUNT=F    at the end of the program the number of calls is written to the file F
 */

typedef unsigned long size_t;

char *getenv(const char *name);
int *__errno_location(void);
int open(const char *name, int flags, ...);
long syscall(long number, ...);
void *__libc_malloc(size_t size);
void *__libc_calloc(size_t count, size_t size);
void *__libc_realloc(void *block, size_t size);
void *__libc_memalign(size_t alignment, size_t size);

enum { SYSCALL_WRITE = 1, TO_WRITE_ANEW = 01 | 0100 | 01000, NO_MEMORY = 12 };

static int is_counting, goes_on;
static size_t asked, refused;

__attribute__((constructor)) static void begin(void)
{
    const char *number = getenv("REFUSE");
    for (; number && *number >= '0' && *number <= '9'; number++)
        refused = 10 * refused + (size_t)(*number - '0');
    goes_on = number && *number == '-';
    is_counting = !getenv("REFUSE_LATE");
}

__attribute__((destructor)) static void end(void)
{
    const char *name = getenv("REFUSE_COUNT");
    char digits[24];
    char *first = digits + sizeof digits;
    is_counting = 0;
    if (!name)
        return;
    *--first = '\n';
    do
        *--first = (char)('0' + asked % 10);
    while (asked /= 10);
    syscall(SYSCALL_WRITE, open(name, TO_WRITE_ANEW, 0600), first, digits + sizeof digits - first);
}

long write(int file, const void *bytes, size_t count)
{
    is_counting |= file == 1;
    return syscall(SYSCALL_WRITE, file, bytes, count);
}

long __write(int file, const void *bytes, size_t count)
{
    return write(file, bytes, count);
}

static int is_refused(void)
{
    if (!is_counting)
        return 0;
    asked++;
    if (!refused || asked < refused || (asked > refused && !goes_on))
        return 0;
    *__errno_location() = NO_MEMORY;
    return 1;
}

void *malloc(size_t size)
{
    return is_refused() ? 0 : __libc_malloc(size);
}

void *calloc(size_t count, size_t size)
{
    return is_refused() ? 0 : __libc_calloc(count, size);
}

void *realloc(void *block, size_t size)
{
    return is_refused() ? 0 : __libc_realloc(block, size);
}

void *memalign(size_t alignment, size_t size)
{
    return is_refused() ? 0 : __libc_memalign(alignment, size);
}

void *aligned_alloc(size_t alignment, size_t size)
{
    return memalign(alignment, size);
}

int posix_memalign(void **block, size_t alignment, size_t size)
{
    void *found = memalign(alignment, size);
    if (!found)
        return NO_MEMORY;
    *block = found;
    return 0;
}
