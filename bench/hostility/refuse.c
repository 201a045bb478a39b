/* Stands before the C library's calls of the program (LD_PRELOAD), counts those of one kind and refuses some of them.

   REFUSE is "KIND FIRST LAST HOW": of the calls of that kind those numbered FIRST to LAST, from 1, are refused. A KIND is grow (malloc and its kin),
   statx, open, read, close, out (write to descriptor 1), err (to descriptor 2) or write (to either). HOW is the number of an error, 0 for a call that
   does nothing and returns 0, -1 for one that takes half of the bytes, or -2 for half at the first and EIO at later ones. At the end the file that REFUSE_TOLD names gets the count of calls and the
   path of the first that was refused. Calls are counted from the end of the constructor, which runs before main. */
#define _GNU_SOURCE
#include <errno.h>
#include <fcntl.h>
#include <stdarg.h>
#include <stddef.h>
#include <stdio.h>
#include <stdlib.h>
#include <string.h>
#include <sys/stat.h>
#include <sys/syscall.h>
#include <unistd.h>

void *__libc_malloc(size_t);
void *__libc_calloc(size_t, size_t);
void *__libc_realloc(void *, size_t);
void *__libc_memalign(size_t, size_t);

static char kind[16], path[4096];
static long first, last, how, count;
static int begun;

__attribute__((constructor)) static void begin(void)
{
    const char *words = getenv("REFUSE");
    if (!words)
        return;
    size_t length = strcspn(words, " ");
    if (length >= sizeof kind)
        return;
    memcpy(kind, words, length);
    char *rest = (char *)words + length;
    first = strtol(rest, &rest, 10);
    last = strtol(rest, &rest, 10);
    how = strtol(rest, &rest, 10);
    begun = 1;
}

__attribute__((destructor)) static void end(void)
{
    const char *told = getenv("REFUSE_TOLD");
    if (!begun || !told)
        return;
    begun = 0;
    char line[4200];
    int length = snprintf(line, sizeof line, "%ld %s\n", count, path);
    int file = syscall(SYS_openat, AT_FDCWD, told, O_WRONLY | O_CREAT | O_TRUNC, 0600);
    syscall(SYS_write, file, line, length);
    syscall(SYS_close, file);
}

/* Whether this call, of that kind, is refused. */
static int refused(const char *called, const char *name)
{
    if (!begun || strcmp(called, kind) || ++count < first || count > last)
        return 0;
    if (!path[0] && name)
        strncpy(path, name, sizeof path - 1);
    return 1;
}

static int refused_file(const char *called, int file)
{
    char link[64], name[4096];
    snprintf(link, sizeof link, "/proc/self/fd/%d", file);
    ssize_t length = syscall(SYS_readlink, link, name, sizeof name - 1);
    name[length < 0 ? 0 : length] = 0;
    return refused(called, name);
}

/* Whether this refused call takes half of the bytes. */
static int is_half(void)
{
    return how == -1 || (how == -2 && count == first);
}

static int answer(void)
{
    errno = how < 0 ? EIO : how;
    return how ? -1 : 0;
}

void *malloc(size_t size)
{
    return refused("grow", 0) ? errno = ENOMEM, NULL : __libc_malloc(size);
}

void *calloc(size_t items, size_t size)
{
    return refused("grow", 0) ? errno = ENOMEM, NULL : __libc_calloc(items, size);
}

void *realloc(void *block, size_t size)
{
    return refused("grow", 0) ? errno = ENOMEM, NULL : __libc_realloc(block, size);
}

void *aligned_alloc(size_t alignment, size_t size)
{
    return refused("grow", 0) ? errno = ENOMEM, NULL : __libc_memalign(alignment, size);
}

int posix_memalign(void **block, size_t alignment, size_t size)
{
    if (refused("grow", 0))
        return ENOMEM;
    *block = __libc_memalign(alignment, size);
    return *block ? 0 : ENOMEM;
}

int statx(int folder, const char *restrict name, int flags, unsigned mask, struct statx *restrict told)
{
    return refused("statx", name) ? answer() : syscall(SYS_statx, folder, name, flags, mask, told);
}

int open(const char *name, int flags, ...)
{
    va_list more;
    va_start(more, flags);
    int mode = flags & O_CREAT ? va_arg(more, int) : 0;
    va_end(more);
    return refused("open", name) ? answer() : syscall(SYS_openat, AT_FDCWD, name, flags, mode);
}

ssize_t read(int file, void *bytes, size_t length)
{
    if (!refused_file("read", file))
        return syscall(SYS_read, file, bytes, length);
    return is_half() ? syscall(SYS_read, file, bytes, length - length / 2) : answer();
}

int close(int file)
{
    if (!refused_file("close", file))
        return syscall(SYS_close, file);
    syscall(SYS_close, file);
    return answer();
}

ssize_t write(int file, const void *bytes, size_t length)
{
    if (!refused("write", 0) && !refused(file == 1 ? "out" : "err", 0))
        return syscall(SYS_write, file, bytes, length);
    return is_half() ? syscall(SYS_write, file, bytes, length - length / 2) : answer();
}
