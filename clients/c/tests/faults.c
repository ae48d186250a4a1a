/*
 * Preloaded into a session: at the Nth call of the system that the library makes, counted from 1, the call fails, or
 * the process is killed before it is made.
 *
 *   FAULT=none            nothing; COUNT gets the names of the calls, a line each
 *   FAULT=kill:N          the process is killed
 *   FAULT=fail:N:ERRNO    this call fails
 *   FAULT=from:N:ERRNO    this call fails, and all later ones of its name
 *   FAULT=short:N         this write or read does a part of what it is asked for
 *   LOG=PATH              each write and sync of the volume that is made is written there: W OFFSET HEX, or S
 */
#define _GNU_SOURCE
#include <dlfcn.h>
#include <errno.h>
#include <fcntl.h>
#include <pthread.h>
#include <signal.h>
#include <stdarg.h>
#include <stdatomic.h>
#include <stdint.h>
#include <stdio.h>
#include <stdlib.h>
#include <string.h>
#include <sys/file.h>
#include <sys/mman.h>
#include <sys/stat.h>
#include <sys/syscall.h>
#include <sys/uio.h>
#include <unistd.h>

static atomic_long calls;
static char names[65536][12];
static char failing[12];

enum outcome { MADE, FAILED, SHORT };

/* What becomes of a call. */
static enum outcome counted(const char *name)
{
    const char *fault = getenv("FAULT");
    char what[8] = "";
    long at = 0, error = 0, call;
    if (!fault)
        return MADE;
    call = atomic_fetch_add(&calls, 1) + 1;
    if (call < 65536)
        strncpy(names[call], name, 11);
    sscanf(fault, "%7[a-z]:%ld:%ld", what, &at, &error);
    if (call == at && strcmp(what, "kill") == 0)
        kill(getpid(), SIGKILL);
    if (call == at)
        strncpy(failing, name, 11);
    if (call == at && strcmp(what, "short") == 0)
        return SHORT;
    if ((call == at && strcmp(what, "fail") == 0) ||
        (call >= at && strcmp(what, "from") == 0 && !strcmp(failing, name))) {
        errno = (int)error;
        return FAILED;
    }
    return MADE;
}

static void put_line(const char *path, const char *line, size_t length)
{
    int file = (int)syscall(SYS_openat, AT_FDCWD, path, O_WRONLY | O_CREAT | O_APPEND, 0600);
    if (syscall(SYS_write, file, line, length) != (long)length)
        abort();
    syscall(SYS_close, file);
}

__attribute__((destructor)) static void report(void)
{
    const char *path = getenv("COUNT");
    char line[64];
    for (long i = 1; path && i <= calls && i < 65536; i++)
        put_line(path, line, (size_t)snprintf(line, sizeof line, "%s\n", names[i]));
}

/* A write or a sync that was made. */
static void note(uint64_t offset, const struct iovec *range, int count, size_t left)
{
    const char *path = getenv("LOG");
    if (!path)
        return;
    char *line = malloc(2 * left + 64);
    int length = sprintf(line, range ? "W %llu " : "S", (unsigned long long)offset);
    for (int i = 0; i < count; i++)
        for (size_t j = 0; j < range[i].iov_len && left > 0; j++, left--)
            length += sprintf(line + length, "%02x", ((const unsigned char *)range[i].iov_base)[j]);
    line[length++] = '\n';
    put_line(path, line, (size_t)length);
    free(line);
}

#define NEXT(name) ((__typeof__(&name))dlsym(RTLD_NEXT, #name))
#define FAIL_OR(value, call) (counted(#value) == FAILED ? -1 : (call))

int flock(int file, int operation)
{
    if (operation & LOCK_UN)
        return FAIL_OR(unlock, NEXT(flock)(file, operation));
    return FAIL_OR(flock, NEXT(flock)(file, operation));
}

int openat(int folder, const char *path, int flags, ...)
{
    va_list more;
    va_start(more, flags);
    int mode = flags & (O_CREAT | O_TMPFILE) ? va_arg(more, int) : 0;
    va_end(more);
    return FAIL_OR(openat, NEXT(openat)(folder, path, flags, mode));
}

int mknodat(int folder, const char *path, mode_t mode, dev_t device)
{
    return FAIL_OR(mknodat, NEXT(mknodat)(folder, path, mode, device));
}

int fstatat(int folder, const char *path, struct stat *found, int flags)
{
    return FAIL_OR(fstatat, NEXT(fstatat)(folder, path, found, flags));
}

int fstat(int file, struct stat *found)
{
    return FAIL_OR(fstat, NEXT(fstat)(file, found));
}

int lstat(const char *path, struct stat *found)
{
    return FAIL_OR(lstat, NEXT(lstat)(path, found));
}

int unlinkat(int folder, const char *path, int flags)
{
    return FAIL_OR(unlinkat, NEXT(unlinkat)(folder, path, flags));
}

ssize_t pread(int file, void *bytes, size_t count, off_t at)
{
    enum outcome outcome = counted("pread");
    return outcome == FAILED ? -1 : NEXT(pread)(file, bytes, outcome == SHORT ? (count + 2) / 3 : count, at);
}

ssize_t write(int file, const void *bytes, size_t count)
{
    if (file <= 2) /* what is printed isn't a file's */
        return NEXT(write)(file, bytes, count);
    return FAIL_OR(write, NEXT(write)(file, bytes, count));
}

ssize_t pwrite(int file, const void *bytes, size_t count, off_t at)
{
    enum outcome outcome = counted("pwrite");
    return outcome == FAILED ? -1 : NEXT(pwrite)(file, bytes, outcome == SHORT ? (count + 2) / 3 : count, at);
}

int fallocate(int file, int mode, off_t at, off_t length)
{
    return FAIL_OR(fallocate, NEXT(fallocate)(file, mode, at, length));
}

int ftruncate(int file, off_t length)
{
    return FAIL_OR(ftruncate, NEXT(ftruncate)(file, length));
}

int linkat(int from, const char *path, int to, const char *name, int flags)
{
    return FAIL_OR(linkat, NEXT(linkat)(from, path, to, name, flags));
}

ssize_t pwritev(int file, const struct iovec *range, int count, off_t at)
{
    enum outcome outcome = counted("pwritev");
    struct iovec part = {range[0].iov_base, (range[0].iov_len + 1) / 2};
    ssize_t written = outcome == FAILED  ? -1
                      : outcome == SHORT ? NEXT(pwritev)(file, &part, 1, at)
                                         : NEXT(pwritev)(file, range, count, at);
    if (written > 0)
        note((uint64_t)at, range, count, (size_t)written);
    return written;
}

int fsync(int file)
{
    return FAIL_OR(fsync, NEXT(fsync)(file));
}

int fdatasync(int file)
{
    int synced = FAIL_OR(fdatasync, NEXT(fdatasync)(file));
    if (synced == 0)
        note(0, NULL, 0, 0);
    return synced;
}

void *mmap(void *at, size_t length, int protection, int flags, int file, off_t offset)
{
    if (length < 4096 || counted("mmap") != FAILED)
        return NEXT(mmap)(at, length, protection, flags, file, offset);
    return MAP_FAILED;
}

int mprotect(void *at, size_t length, int protection)
{
    /* the handler's are left: a store whose page can't be opened ends the process */
    return protection & PROT_WRITE ? NEXT(mprotect)(at, length, protection)
                                   : FAIL_OR(mprotect, NEXT(mprotect)(at, length, protection));
}

int sigaction(int number, const struct sigaction *action, struct sigaction *was)
{
    return FAIL_OR(sigaction, NEXT(sigaction)(number, action, was));
}

int pthread_create(pthread_t *thread, const pthread_attr_t *attributes, void *(*start)(void *), void *argument)
{
    return counted("thread") == FAILED ? errno : NEXT(pthread_create)(thread, attributes, start, argument);
}
