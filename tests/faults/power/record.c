/*
 * Preloaded by `tests/faults/power_cut` and `tests/program/stored_runs`: records the writes and syncs of the file that
 * VOLUME names, in the file that LOG names. A line `W OFFSET COUNT` with the bytes behind it is a write, a line `S` a
 * sync, each once the call has returned without an error. `overlap` is a call that begins before another one has
 * returned. With DROP in the environment every second sync does nothing, and isn't recorded: a library that forgets
 * syncs.
 *
 * With ALL in the environment it also records `R OFFSET COUNT` for a read, `O COUNT` for a write to standard output,
 * and calls that fail: `FR OFFSET COUNT`, `FW OFFSET COUNT` without bytes, and `FS`.
 */
#define _GNU_SOURCE
#include <dlfcn.h>
#include <fcntl.h>
#include <stdatomic.h>
#include <stdio.h>
#include <stdlib.h>
#include <string.h>
#include <sys/stat.h>
#include <sys/uio.h>
#include <unistd.h>

#define NEXT(name) ((__typeof__(&name))dlsym(RTLD_NEXT, #name))
#define MOST (1 << 24)

static atomic_int busy;

static int log_file(void)
{
    static int file = -1;
    if (file < 0 && getenv("LOG"))
        file = open(getenv("LOG"), O_WRONLY | O_APPEND | O_CREAT | O_CLOEXEC, 0600);
    return file;
}

static int is_volume(int file)
{
    struct stat its, named;
    return getenv("VOLUME") && log_file() >= 0 && fstat(file, &its) == 0 && stat(getenv("VOLUME"), &named) == 0 &&
           its.st_ino == named.st_ino && its.st_dev == named.st_dev;
}

static void put(const struct iovec *parts, int count)
{
    if (NEXT(writev)(log_file(), parts, count) < 0)
        abort();
}

static void put_line(const char *line)
{
    struct iovec part = {(void *)line, strlen(line)};
    put(&part, 1);
}

static int records_all(void)
{
    return getenv("ALL") != NULL;
}

/* A line of a call that all calls are recorded for. */
static void note(const char *kind, long long at, long long count)
{
    char line[64];
    snprintf(line, sizeof line, "%s %lld %lld\n", kind, at, count);
    if (records_all())
        put_line(line);
}

static size_t length_of(const struct iovec *parts, int count)
{
    size_t length = 0;
    for (int i = 0; i < count; i++)
        length += parts[i].iov_len;
    return length;
}

static void begin(void)
{
    if (atomic_fetch_add(&busy, 1) != 0)
        put_line("overlap\n");
}

static void end(void)
{
    atomic_fetch_sub(&busy, 1);
}

/* The bytes that a call wrote, as one entry. */
static void record(const struct iovec *parts, int count, off_t at, ssize_t written)
{
    static char bytes[MOST + 64];
    size_t length = (size_t)snprintf(bytes, 64, "W %lld %lld\n", (long long)at, (long long)written);
    size_t left = (size_t)written;
    for (int i = 0; i < count && left > 0; i++) {
        size_t here = parts[i].iov_len < left ? parts[i].iov_len : left;
        if (length + here > sizeof bytes)
            abort();
        memcpy(bytes + length, parts[i].iov_base, here);
        length += here;
        left -= here;
    }
    struct iovec whole = {bytes, length};
    put(&whole, 1);
}

/* Records a write that has returned. */
static ssize_t end_write(const struct iovec *parts, int count, off_t at, ssize_t written)
{
    if (written > 0)
        record(parts, count, at, written);
    else
        note("FW", at, (long long)length_of(parts, count));
    end();
    return written;
}

ssize_t pwritev(int file, const struct iovec *parts, int count, off_t at)
{
    if (!is_volume(file))
        return NEXT(pwritev)(file, parts, count, at);
    begin();
    return end_write(parts, count, at, NEXT(pwritev)(file, parts, count, at));
}

ssize_t pwritev64(int file, const struct iovec *parts, int count, off64_t at)
{
    return pwritev(file, parts, count, at);
}

ssize_t pwrite(int file, const void *bytes, size_t count, off_t at)
{
    struct iovec part = {(void *)bytes, count};
    if (!is_volume(file))
        return NEXT(pwrite)(file, bytes, count, at);
    begin();
    return end_write(&part, 1, at, NEXT(pwrite)(file, bytes, count, at));
}

ssize_t pwrite64(int file, const void *bytes, size_t count, off64_t at)
{
    return pwrite(file, bytes, count, at);
}

ssize_t pread(int file, void *bytes, size_t count, off_t at)
{
    ssize_t found = NEXT(pread)(file, bytes, count, at);
    if (records_all() && is_volume(file))
        note(found < 0 ? "FR" : "R", at, (long long)count);
    return found;
}

ssize_t pread64(int file, void *bytes, size_t count, off64_t at)
{
    return pread(file, bytes, count, at);
}

ssize_t write(int file, const void *bytes, size_t count)
{
    ssize_t written = NEXT(write)(file, bytes, count);
    if (file == STDOUT_FILENO && log_file() >= 0 && written > 0)
        note("O", written, 0);
    return written;
}

static int synced(int file, int (*sync)(int))
{
    static atomic_int syncs;
    if (!is_volume(file))
        return sync(file);
    if (getenv("DROP") && atomic_fetch_add(&syncs, 1) % 2 == 1)
        return 0;
    begin();
    int result = sync(file);
    if (result == 0)
        put_line("S\n");
    else if (records_all())
        put_line("FS\n");
    end();
    return result;
}

int fdatasync(int file)
{
    return synced(file, NEXT(fdatasync));
}

int fsync(int file)
{
    return synced(file, NEXT(fsync));
}
