/* What the tests share: each is a program that makes a volume of its own and ends with status 1 where a promise doesn't
   hold. Volumes are made here, byte by byte as docs/FORMATS.md has them, so that no other program is needed. */
#ifndef TEST_H
#define TEST_H

#define _GNU_SOURCE
#include "famsync.h"

#include <errno.h>
#include <fcntl.h>
#include <pthread.h>
#include <signal.h>
#include <stdbool.h>
#include <stdio.h>
#include <stdlib.h>
#include <string.h>
#include <sys/stat.h>
#include <sys/syscall.h>
#include <sys/wait.h>
#include <unistd.h>

#define WANT(holds) want((holds), #holds, __FILE__, __LINE__)
#define WANT_CODE(call, code) want_code((call), (code), #call, __FILE__, __LINE__)

/* A function that is called before a sanitizer has begun. */
#define BEFORE_SANITIZERS __attribute__((no_sanitize("thread", "address", "undefined")))

/* A test may have an mmap of its own, which calls this: that of a sanitizer if there is one, else the system's. */
extern void *__interceptor_mmap(void *, size_t, int, int, int, off_t) __attribute__((weak));

BEFORE_SANITIZERS static inline void *other_mmap(void *at, size_t length, int protection, int flags, int file,
                                                 off_t offset)
{
    if (__interceptor_mmap)
        return __interceptor_mmap(at, length, protection, flags, file, offset);
    return (void *)syscall(SYS_mmap, at, length, protection, flags, file, offset);
}

/* Whether the process can go on where the system allows it no further mapping. Under a sanitizer or valgrind it can't:
   they map memory of their own, and end a process that gets none. */
static inline bool goes_on_without_mappings(void)
{
    return __interceptor_mmap == NULL && getenv("WITHOUT_MAPPINGS") == NULL;
}

static char folder[64];
static char volume[80];

static inline void want(bool holds, const char *what, const char *file, int line)
{
    if (holds)
        return;
    fprintf(stderr, "%s:%d: this should hold: %s\n", file, line, what);
    exit(1);
}

static inline void want_code(int found, int code, const char *what, const char *file, int line)
{
    if (found == code)
        return;
    fprintf(stderr, "%s:%d: %s is %d (%s), and should be %d (%s)\n", file, line, what, found, famsync_strerror(found),
            code, famsync_strerror(code));
    exit(1);
}

static inline void remove_folder(void)
{
    static pid_t of;
    if (of == 0) {
        of = getpid();
        atexit(remove_folder);
    } else if (of == getpid()) {
        char command[128];
        snprintf(command, sizeof command, "rm -rf '%s'", folder);
        if (system(command) != 0)
            fprintf(stderr, "%s is left\n", folder);
    }
}

static inline void make_folder(void)
{
    if (folder[0])
        return;
    strcpy(folder, "/tmp/famsync-test-XXXXXX");
    WANT(mkdtemp(folder) != NULL);
    remove_folder();
    snprintf(volume, sizeof volume, "%s/v.img", folder);
}

static inline void put_number(unsigned char *bytes, unsigned count, uint64_t number)
{
    for (unsigned i = count; i > 0; i--, number >>= 8)
        bytes[i - 1] = (unsigned char)number;
}

/* Layouts FIRST_LAYOUT to LAYOUTS, as docs/FORMATS.md has them: those with a log. */
#define FIRST_LAYOUT 5u
#define LAYOUTS 6u

/* How many blocks a log has in which a commit has at most so many records, and how many of its blocks such a commit
   takes. The key of layout 6. */
#define LOG_KEY 0x0123456789abcdefu

static inline uint32_t commit_blocks(unsigned records)
{
    return (32 + 4 * records + 4095) / 4096 + records;
}

static inline uint32_t log_blocks(unsigned records)
{
    uint32_t blocks = commit_blocks(records) + 1;
    return blocks < 4 ? 4 : blocks;
}

/* The first block after the log, which is the lengths block. */
static inline uint32_t first_home(unsigned records)
{
    return 4 + log_blocks(records);
}

/* The super block and the lengths block of a volume with these files, `NAME=LENGTH` or `NAME=LENGTH/CAPACITY`, with
   blanks between them. Its log has room for a commit of so many records. Answers how many blocks it has;
   `*lengths_at` is where the lengths block lies. */
static inline uint32_t lay_out(unsigned layout, unsigned records, const char *files, unsigned char super[4096],
                               unsigned char lengths[4096], uint32_t *lengths_at)
{
    uint32_t next = first_home(records) + 1;
    uint32_t behind = log_blocks(records) + 1; /* the table has a home block that is so many blocks before it */
    unsigned count = 0;
    WANT(FIRST_LAYOUT <= layout && layout <= LAYOUTS);
    *lengths_at = next - 1;
    for (const char *at = files; *at; at += strspn(at, " "), count++) {
        unsigned long long length, capacity;
        char name[33] = "";
        int read = 0;
        unsigned char *row = super + 32 + 48 * count;
        WANT(sscanf(at, "%32[^=]=%llu%n", name, &length, &read) == 2);
        at += read;
        capacity = length;
        if (*at == '/') {
            WANT(sscanf(at, "/%llu%n", &capacity, &read) == 1);
            at += read;
        }
        memcpy(row, name, strlen(name));
        put_number(row + 32, 8, capacity);
        put_number(row + 40, 4, next - behind);
        put_number(row + 44, 4, (capacity + 4095) / 4096);
        put_number(lengths + 8 * count, 8, length);
        next += (uint32_t)((capacity + 4095) / 4096);
    }
    memcpy(super, "FAMSYNC", 7);
    super[7] = (unsigned char)('0' + layout);
    put_number(super + 8, 4, count);
    put_number(super + 12, 4, log_blocks(records));
    put_number(super + 16, 4, next);
    put_number(super + 20, 4, 4);
    put_number(super + 24, 8, layout == 6 ? LOG_KEY : 0);
    return next;
}

/* Writes what a new volume has besides zeros. */
static inline void write_new(int file, const unsigned char *super, const unsigned char *lengths, uint32_t lengths_at)
{
    unsigned char start[4096] = {0};
    put_number(start, 8, 1);
    put_number(start + 8, 8, 1);
    WANT(pwrite(file, super, 4096, 0) == 4096);
    WANT(pwrite(file, lengths, 4096, (off_t)lengths_at * 4096) == 4096);
    WANT(pwrite(file, start, 4096, 2 * 4096) == 4096);
}

/* Makes a volume of a layout with these files in a folder of its own. A commit has at most one page less than so many
   records, as one is for the lengths. */
static inline void make_volume_of(unsigned layout, unsigned records, const char *files)
{
    unsigned char super[4096] = {0}, lengths[4096] = {0};
    static const unsigned char zeros[65536];
    uint32_t lengths_at, blocks = lay_out(layout, records, files, super, lengths, &lengths_at);
    make_folder();
    int file = open(volume, O_RDWR | O_CREAT | O_TRUNC | O_CLOEXEC, 0600);
    WANT(file >= 0);
    for (uint64_t done = 0; done < (uint64_t)blocks * 4096;) {
        uint64_t left = (uint64_t)blocks * 4096 - done;
        ssize_t written = write(file, zeros, left < sizeof zeros ? left : sizeof zeros);
        WANT(written > 0);
        done += (uint64_t)written;
    }
    write_new(file, super, lengths, lengths_at);
    WANT(close(file) == 0);
}

/* The same, and all that is zeros is a hole. */
static inline void make_hole_of(unsigned layout, unsigned records, const char *files)
{
    unsigned char super[4096] = {0}, lengths[4096] = {0};
    uint32_t lengths_at, blocks = lay_out(layout, records, files, super, lengths, &lengths_at);
    make_folder();
    int file = open(volume, O_RDWR | O_CREAT | O_TRUNC | O_CLOEXEC, 0600);
    WANT(file >= 0 && ftruncate(file, (off_t)blocks * 4096) == 0);
    write_new(file, super, lengths, lengths_at);
    WANT(close(file) == 0);
}

/* The same, in which a commit has at most so many pages. */
static inline void make_volume(unsigned pages, const char *files)
{
    make_volume_of(FIRST_LAYOUT, pages + 1, files);
}

/* The bytes of a volume as a number. */
static inline uint64_t number_at(int file, uint64_t offset, unsigned count)
{
    unsigned char bytes[8];
    uint64_t number = 0;
    WANT(pread(file, bytes, count, (off_t)offset) == (ssize_t)count);
    for (unsigned i = 0; i < count; i++)
        number = number << 8 | bytes[i];
    return number;
}

/* How many commits are in the log of a volume, behind the start that counts: each has the next number. */
static inline unsigned commits_in_log(int file)
{
    uint64_t start = number_at(file, 4096, 1) == 0xA7 ? 3 * 4096 : 2 * 4096, ring = number_at(file, 12, 4);
    uint64_t number = number_at(file, start, 8), position = number_at(file, start + 16, 4), used = 0;
    unsigned commits = 0;
    for (; used < ring; commits++, number++) {
        uint64_t at = (4 + (position + used) % ring) * 4096;
        bool sealed = number_at(file, 7, 1) == '6' || number_at(file, at, 1) == 0xA7;
        if (!sealed || number_at(file, at + 8, 8) != number)
            break;
        used += commit_blocks((unsigned)number_at(file, at + 16, 4));
    }
    return commits;
}

/* How many commits of the volume are in its log. */
static inline unsigned commits_left(void)
{
    int file = open(volume, O_RDONLY | O_CLOEXEC);
    WANT(file >= 0);
    unsigned count = commits_in_log(file);
    WANT(close(file) == 0);
    return count;
}

/* Whether that many commits of a page may be left after so many: the newest one, and as many more as the log has room
   for. */
static inline bool may_be_left(unsigned records, unsigned commits, unsigned left)
{
    return left >= 1 && left <= commits && left <= log_blocks(records) / commit_blocks(1);
}

static inline famsync *opened_with(struct famsync_options options)
{
    famsync *handle;
    char message[FAMSYNC_MESSAGE_SIZE];
    options.message = message;
    options.message_size = sizeof message;
    int code = famsync_open(volume, &options, &handle);
    if (code != FAMSYNC_OK)
        fprintf(stderr, "it said: %s\n", message);
    WANT_CODE(code, FAMSYNC_OK);
    return handle;
}

static inline famsync *opened(void)
{
    return opened_with((struct famsync_options){0});
}

#endif
