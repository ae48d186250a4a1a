/*
 * A library that is preloaded into the program: at the Nth call that changes a file or makes one durable, counted from
 * 1, the call fails, or the process is killed or stopped before it is made.
 *
 *   FAULT=none             nothing; the number of calls is written to the file COUNT
 *   FAULT=kill:N           the process is killed
 *   FAULT=stop:N           the process stops, and makes the call once it is continued
 *   FAULT=fail:N:ERRNO     this call fails
 *   FAULT=from:N:ERRNO     this call fails, and all later ones
 *
 * ONLY=sync counts calls of fsync and fdatasync alone, ONLY=write writes alone, and ONLY=read reads at an offset alone,
 * which are no such calls and else aren't counted. ONLY=device counts syncs, and reads and writes at an offset.
 *
 * With SPOIL in the environment a write at an offset that fails fills its range with bytes 0xEE.
 */
#define _GNU_SOURCE
#include <dlfcn.h>
#include <errno.h>
#include <fcntl.h>
#include <signal.h>
#include <stdarg.h>
#include <stdio.h>
#include <stdlib.h>
#include <string.h>
#include <sys/syscall.h>
#include <sys/types.h>
#include <unistd.h>

enum kind { OTHER, WRITE, PUT, SYNC, READ };

static long calls;

static int counts(enum kind kind)
{
    const char *only = getenv("ONLY");
    if (!only)
        return kind != READ;
    if (strcmp(only, "device") == 0)
        return kind == PUT || kind == SYNC || kind == READ;
    if (strcmp(only, "read") == 0)
        return kind == READ;
    return strcmp(only, "sync") == 0 ? kind == SYNC : kind == WRITE || kind == PUT;
}

/* Whether this call fails. */
static int fails(enum kind kind)
{
    const char *fault = getenv("FAULT");
    char what[8] = "";
    long at = 0, error = 0;
    if (!fault || !counts(kind))
        return 0;
    calls++;
    sscanf(fault, "%7[a-z]:%ld:%ld", what, &at, &error);
    if (calls == at && strcmp(what, "kill") == 0)
        kill(getpid(), SIGKILL);
    if (calls == at && strcmp(what, "stop") == 0)
        kill(getpid(), SIGSTOP);
    if ((calls == at && strcmp(what, "fail") == 0) || (calls >= at && strcmp(what, "from") == 0)) {
        errno = (int)error;
        return 1;
    }
    return 0;
}

__attribute__((destructor)) static void report(void)
{
    const char *path = getenv("COUNT");
    FILE *out = path ? fopen(path, "w") : NULL;
    if (out) {
        fprintf(out, "%ld\n", calls);
        fclose(out);
    }
}

/* A program that has threads ends by this call alone, which runs no destructors. */
void _exit(int status)
{
    report();
    for (;;)
        syscall(SYS_exit_group, status);
}

#define NEXT(name) ((__typeof__(&name))dlsym(RTLD_NEXT, #name))

/* A write that fails, with the error that is set. */
static ssize_t spoil(int file, size_t count, off_t at)
{
    static const unsigned char spoilt[4096] = {[0 ... 4095] = 0xEE};
    int error = errno;
    for (size_t done = 0; getenv("SPOIL") && done < count; done += sizeof spoilt) {
        size_t here = count - done < sizeof spoilt ? count - done : sizeof spoilt;
        if (NEXT(pwrite)(file, spoilt, here, at + (off_t)done) != (ssize_t)here)
            abort();
    }
    errno = error;
    return -1;
}

ssize_t pwrite(int file, const void *bytes, size_t count, off_t at)
{
    return fails(PUT) ? spoil(file, count, at) : NEXT(pwrite)(file, bytes, count, at);
}

ssize_t pwrite64(int file, const void *bytes, size_t count, off64_t at)
{
    return fails(PUT) ? spoil(file, count, at) : NEXT(pwrite64)(file, bytes, count, at);
}

ssize_t write(int file, const void *bytes, size_t count)
{
    /* what is printed isn't a file's */
    return file > 2 && fails(WRITE) ? -1 : NEXT(write)(file, bytes, count);
}

ssize_t pread(int file, void *bytes, size_t count, off_t at)
{
    return fails(READ) ? -1 : NEXT(pread)(file, bytes, count, at);
}

ssize_t pread64(int file, void *bytes, size_t count, off64_t at)
{
    return fails(READ) ? -1 : NEXT(pread64)(file, bytes, count, at);
}

int fsync(int file)
{
    return fails(SYNC) ? -1 : NEXT(fsync)(file);
}

int fdatasync(int file)
{
    return fails(SYNC) ? -1 : NEXT(fdatasync)(file);
}

int rename(const char *from, const char *to)
{
    return fails(OTHER) ? -1 : NEXT(rename)(from, to);
}

int unlink(const char *path)
{
    return fails(OTHER) ? -1 : NEXT(unlink)(path);
}

int fchmod(int file, mode_t mode)
{
    return fails(OTHER) ? -1 : NEXT(fchmod)(file, mode);
}

int fchown(int file, uid_t user, gid_t group)
{
    return fails(OTHER) ? -1 : NEXT(fchown)(file, user, group);
}

int ftruncate64(int file, off64_t length)
{
    return fails(OTHER) ? -1 : NEXT(ftruncate64)(file, length);
}
