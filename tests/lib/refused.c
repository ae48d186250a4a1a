/*
 * A library that is preloaded into the program: the Nth request for memory from the program's start on, counted from 1,
 * is refused.
 *
 *   REFUSED=N   which request; 0 refuses none
 *   COUNT=PATH  the file to which the number of requests is written at the end
 */
#define _GNU_SOURCE
#include <errno.h>
#include <fcntl.h>
#include <stdio.h>
#include <stdlib.h>
#include <sys/syscall.h>
#include <unistd.h>

extern void *__libc_malloc(size_t size);
extern void *__libc_calloc(size_t count, size_t size);
extern void *__libc_realloc(void *block, size_t size);

static long requests, refused;
static int begun;

__attribute__((constructor)) static void begin(void)
{
    const char *nth = getenv("REFUSED");
    refused = nth ? atol(nth) : 0;
    begun = 1;
}

/* Whether this request is refused. */
static int refuses(void)
{
    if (!begun || ++requests != refused)
        return 0;
    errno = ENOMEM;
    return 1;
}

void *malloc(size_t size)
{
    return refuses() ? NULL : __libc_malloc(size);
}

void *calloc(size_t count, size_t size)
{
    return refuses() ? NULL : __libc_calloc(count, size);
}

void *realloc(void *block, size_t size)
{
    return refuses() ? NULL : __libc_realloc(block, size);
}

__attribute__((destructor)) static void report(void)
{
    const char *path = getenv("COUNT");
    char text[32];
    int file, length;
    begun = 0;
    if (!path || (file = open(path, O_WRONLY | O_CREAT | O_TRUNC, 0600)) < 0)
        return;
    length = snprintf(text, sizeof text, "%ld\n", requests);
    if (write(file, text, (size_t)length) != length)
        abort();
    close(file);
}

/* A program that has threads ends by this call alone, which runs no destructors. */
void _exit(int status)
{
    report();
    for (;;)
        syscall(SYS_exit_group, status);
}
