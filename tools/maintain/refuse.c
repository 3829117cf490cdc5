/* Refuses calls of the C library to a program that preloads it, as if memory or a stream had failed. The variable REFUSE
   names the kind of call, malloc, read or write, and the number of the call that is refused, counted from 1, as in malloc:3;
   in malloc:3+ every later call is refused too. calloc and realloc are calls for memory as malloc is. For each refusal one
   octet goes to the file descriptor REFUSE_TO. */
#define _GNU_SOURCE
#include <errno.h>
#include <stdlib.h>
#include <string.h>
#include <sys/syscall.h>
#include <unistd.h>

extern void *__libc_malloc(size_t size);
extern void *__libc_calloc(size_t count, size_t size);
extern void *__libc_realloc(void *old, size_t size);

static char kind;
/* How many calls of the kind come before the one that is refused; below 0 none is refused any more. */
static long before = -1;
static int later_too;
static int told;

__attribute__((constructor)) static void begin(void)
{
    const char *what = getenv("REFUSE");
    const char *where = getenv("REFUSE_TO");
    if (what == NULL || where == NULL || strchr(what, ':') == NULL)
        return;
    kind = what[0];
    before = atol(strchr(what, ':') + 1) - 1;
    later_too = strchr(what, '+') != NULL;
    told = atoi(where);
}

static int refused(char of_kind)
{
    if (kind != of_kind || before < 0 || before-- > 0)
        return 0;
    if (later_too)
        before = 0;
    syscall(SYS_write, told, "!", 1);
    return 1;
}

static int no_memory(void)
{
    if (!refused('m'))
        return 0;
    errno = ENOMEM;
    return 1;
}

static int broken(char of_kind)
{
    if (!refused(of_kind))
        return 0;
    errno = EIO;
    return 1;
}

void *malloc(size_t size)
{
    return no_memory() ? NULL : __libc_malloc(size);
}

void *calloc(size_t count, size_t size)
{
    return no_memory() ? NULL : __libc_calloc(count, size);
}

void *realloc(void *old, size_t size)
{
    return no_memory() ? NULL : __libc_realloc(old, size);
}

ssize_t read(int file, void *octets, size_t count)
{
    return broken('r') ? -1 : syscall(SYS_read, file, octets, count);
}

ssize_t write(int file, const void *octets, size_t count)
{
    return broken('w') ? -1 : syscall(SYS_write, file, octets, count);
}

/* Another name of the same. */
ssize_t __write(int file, const void *octets, size_t count)
{
    return write(file, octets, count);
}
