// Makes one call of a program fail: LD_PRELOAD of this, and in the environment
//   MISBEHAVE=memory, read, write or open   of what kind the call is: an allocation, a read of standard input, a write
//                                     to standard output, the opening of a file
//   MISBEHAVE=large                   each allocation of more than MISBEHAVE_AT bytes fails
//   MISBEHAVE=sizes                   no call fails: the sizes of the allocations are written to MISBEHAVE_TOLD, a line
//                                     up to each write
//   MISBEHAVE_AT=N                    which of the calls of this kind
//   MISBEHAVE_TIMES=N                 how many in a row; one if it is not set
//   MISBEHAVE_BY=short or a number    a read or write then moves one byte; or it fails with this number of errno
//   MISBEHAVE_BY=nothing              a write then takes nothing
//   MISBEHAVE_TOLD=PATH               the file that is made when the call has come
#define _GNU_SOURCE
#include <dlfcn.h>
#include <errno.h>
#include <fcntl.h>
#include <stdlib.h>
#include <string.h>
#include <sys/syscall.h>
#include <sys/uio.h>
#include <unistd.h>

void *__libc_malloc(size_t size);
void *__libc_realloc(void *pointer, size_t size);

static const char *kind = "", *path;
static long left, times; // how many calls there are up to the one that fails, and how many fail from there on
static int noted = -1; // the file that sizes are written to
static int takes_nothing, number; // the number of errno, or 0 for a call that moves one byte

__attribute__((constructor)) static void begin(void)
{
    const char *at = getenv("MISBEHAVE_AT"), *by = getenv("MISBEHAVE_BY");
    kind = getenv("MISBEHAVE") ? getenv("MISBEHAVE") : "";
    path = getenv("MISBEHAVE_TOLD");
    number = by ? atoi(by) : 0;
    takes_nothing = by && strcmp(by, "nothing") == 0;
    left = at ? atol(at) : 0;
    times = getenv("MISBEHAVE_TIMES") ? atol(getenv("MISBEHAVE_TIMES")) : 1;
    if (path && strcmp(kind, "sizes") == 0)
        noted = creat(path, 0644);
}

static int has_come(const char *of)
{
    if (left == 0 || times == 0 || strcmp(kind, of) != 0)
        return 0;
    if (left > 1) {
        left--;
        return 0;
    }
    times--;
    if (path)
        close(creat(path, 0644));
    path = NULL;
    return 1;
}

// Notes a size, or the end of a line where there is none. It asks for no memory.
static void note(size_t size, char end)
{
    char digits[24];
    size_t at = sizeof digits - 1;
    digits[at] = end;
    for (; size > 0; size /= 10)
        digits[--at] = '0' + size % 10;
    if (noted >= 0 && syscall(SYS_write, noted, digits + at, sizeof digits - at) < 0)
        abort();
}

// Whether an allocation of this size is refused.
static int is_refused(size_t size)
{
    note(size, ' ');
    return strcmp(kind, "large") == 0 ? size > (size_t)left : has_come("memory");
}

void *malloc(size_t size)
{
    return is_refused(size) ? NULL : __libc_malloc(size);
}

void *realloc(void *pointer, size_t size)
{
    return is_refused(size) ? NULL : __libc_realloc(pointer, size);
}

// `read` or `write`, of which the calls on this file may misbehave; the others are the C library's.
#define CALL(name, on, bytes) \
    ssize_t name(int file, bytes buffer, size_t size) \
    { \
        ssize_t (*next)(int, bytes, size_t) = (ssize_t (*)(int, bytes, size_t))dlsym(RTLD_NEXT, #name); \
        if (file == 1) note(0, '\n'); \
        if (file != on || size == 0 || !has_come(#name)) return next(file, buffer, size); \
        if (takes_nothing) return 0; \
        if (number == 0) return next(file, buffer, 1); \
        errno = number; \
        return -1; \
    }
CALL(read, 0, void *)
CALL(write, 1, const void *)

// An opening that makes no file.
int open(const char *name, int flags, ...)
{
    if (!has_come("open")) return openat(AT_FDCWD, name, flags);
    errno = number;
    return -1;
}
