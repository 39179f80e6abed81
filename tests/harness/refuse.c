/* Fails one allocation of a program that is run with this library preloaded: the one with the
   number GROWTH, from 1 on, of those between the lines `begin` and `end` that the program writes to
   standard error; if WHOLE is set, of all. At each `end`, or at the program's end, it prints their
   number so far. */
#include <errno.h>
#include <stdio.h>
#include <stdlib.h>
#include <string.h>
#include <sys/syscall.h>
#include <unistd.h>

extern void *__libc_malloc(size_t);
extern void *__libc_calloc(size_t, size_t);
extern void *__libc_realloc(void *, size_t);
extern void *__libc_memalign(size_t, size_t);

static int is_counting;
static long growths, refused;

/* Whether this is the allocation to fail. */
static int is_refused(void)
{
    if (!is_counting || ++growths != refused)
        return 0;
    errno = ENOMEM;
    return 1;
}

void *malloc(size_t size)
{
    return is_refused() ? NULL : __libc_malloc(size);
}

void *calloc(size_t count, size_t size)
{
    return is_refused() ? NULL : __libc_calloc(count, size);
}

void *realloc(void *block, size_t size)
{
    return is_refused() ? NULL : __libc_realloc(block, size);
}

void *aligned_alloc(size_t alignment, size_t size)
{
    return is_refused() ? NULL : __libc_memalign(alignment, size);
}

int posix_memalign(void **block, size_t alignment, size_t size)
{
    if (is_refused() || !(*block = __libc_memalign(alignment, size)))
        return ENOMEM;
    return 0;
}

static void say_growths(void)
{
    char line[32];
    int length = snprintf(line, sizeof line, "growths %ld\n", growths);
    syscall(SYS_write, 2, line, (size_t)length);
}

static long wanted_growth(void)
{
    return getenv("GROWTH") ? atol(getenv("GROWTH")) : 0;
}

__attribute__((constructor)) static void begin_whole(void)
{
    if (getenv("WHOLE")) {
        refused = wanted_growth();
        is_counting = 1;
    }
}

__attribute__((destructor)) static void end_whole(void)
{
    if (getenv("WHOLE")) {
        is_counting = 0;
        say_growths();
    }
}

ssize_t write(int file, const void *bytes, size_t size)
{
    if (file == 2 && size == 6 && !memcmp(bytes, "begin\n", 6)) {
        refused = wanted_growth();
        is_counting = 1;
    } else if (file == 2 && size == 4 && !memcmp(bytes, "end\n", 4)) {
        is_counting = 0;
        say_growths();
    }
    return syscall(SYS_write, file, bytes, size);
}

ssize_t __write(int file, const void *bytes, size_t size)
{
    return write(file, bytes, size);
}
