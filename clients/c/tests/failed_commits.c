/* A commit that fails leaves pages that were stored to read-only. Afterwards the file shrinks, grows, or is rolled
   back, whichever way the commit has failed, and the next commit has all stores that are left. */
#include "test.h"

#include <stdarg.h>
#include <sys/ioctl.h>
#include <sys/mman.h>

#define LENGTH (10 * 4096 - 50)
#define CAPACITY (20 * 4096)

/* What makes a commit fail. */
enum failure { TOO_MANY, NO_MEMORY, NO_READ, NO_PROTECTION, FAILURES };

static unsigned layout;
static struct famsync_options options;
static famsync *handle;
static famsync_memory *memory, *other;
static unsigned char *at, *other_at;

/* Which request for memory is refused, counted from 1; 0: none. */
static long refused, requests;
static bool has_own_malloc;

#if defined(__GLIBC__) && !defined(__SANITIZE_ADDRESS__) && !defined(__SANITIZE_THREAD__) && !defined(__clang__)
extern void *__libc_malloc(size_t size);
extern void *__libc_realloc(void *block, size_t size);

static bool refuses(void)
{
    has_own_malloc = true;
    if (refused == 0 || ++requests != refused)
        return false;
    errno = ENOMEM;
    return true;
}

void *malloc(size_t size)
{
    return refuses() ? NULL : __libc_malloc(size);
}

void *realloc(void *block, size_t size)
{
    return refuses() ? NULL : __libc_realloc(block, size);
}
#endif

/* No power is cut here. */
int fdatasync(int file)
{
    (void)file;
    return 0;
}

int fsync(int file)
{
    (void)file;
    return 0;
}

static bool unreadable;

ssize_t pread(int file, void *bytes, size_t count, off_t offset)
{
    if (unreadable) {
        errno = EIO;
        return -1;
    }
    return syscall(SYS_pread64, file, bytes, count, offset);
}

/* Pages from this address on can't be closed, and what was stored to them can't be looked up. */
static const unsigned char *locked;

static bool is_locked(uint64_t address)
{
    return locked && address == (uint64_t)(uintptr_t)locked;
}

BEFORE_SANITIZERS int mprotect(void *from, size_t length, int protection)
{
    if (protection == PROT_READ && is_locked((uintptr_t)from)) {
        errno = ENOMEM;
        return -1;
    }
    return (int)syscall(SYS_mprotect, from, length, protection);
}

/* The third number of the argument of PAGEMAP_SCAN is where it begins. */
BEFORE_SANITIZERS int ioctl(int file, unsigned long request, ...)
{
    va_list more;
    va_start(more, request);
    uint64_t *argument = va_arg(more, uint64_t *);
    va_end(more);
    if (request == _IOC(_IOC_READ | _IOC_WRITE, 'f', 16, 96) && is_locked(argument[2])) {
        errno = ENOMEM;
        return -1;
    }
    return (int)syscall(SYS_ioctl, file, request, argument);
}

/* Memory is entered at the front, so a commit closes that of the first file last. */
static void begin(enum failure failure)
{
    unlink(volume); /* a system may write a file's bytes out if it is made shorter and closed */
    make_volume_of(layout, failure == TOO_MANY ? 5 : 20, "b=4096 a=40910/81920");
    handle = opened_with(options);
    WANT_CODE(famsync_memory_open(handle, "b", &other), FAMSYNC_OK);
    WANT_CODE(famsync_memory_open(handle, "a", &memory), FAMSYNC_OK);
    other_at = famsync_memory_at(other);
    at = famsync_memory_at(memory);
}

static void end(void)
{
    WANT_CODE(famsync_memory_close(memory), FAMSYNC_OK);
    WANT_CODE(famsync_memory_close(other), FAMSYNC_OK);
    int code = famsync_close(handle);
    WANT(code == FAMSYNC_OK || code == FAMSYNC_DEVICE);
}

/* Ten pages of one file and one of the other; also past the end, which is memory that no file has. */
static void store(void)
{
    for (unsigned char page = 0; page < 10; page++)
        at[page * 4096] = at[page * 4096 + 200] = page + 1;
    at[LENGTH] = at[10 * 4096 - 1] = 99;
    other_at[5] = 77;
}

/* Whether a commit has failed so that the session goes on. A commit may need neither this memory nor this read. */
static bool fails(enum failure failure)
{
    unreadable = failure == NO_READ;
    locked = failure == NO_PROTECTION ? other_at : NULL;
    int code = famsync_msync(handle, NULL);
    refused = 0;
    unreadable = false;
    locked = NULL;
    if (failure == TOO_MANY)
        WANT_CODE(code, FAMSYNC_NOFRAME);
    if (failure == NO_PROTECTION)
        WANT_CODE(code, FAMSYNC_SYSTEM);
    return code != FAMSYNC_OK && famsync_memory_touch(memory, 0, 0) == FAMSYNC_OK &&
           famsync_read(handle, 0, 0, NULL, 0, NULL) == FAMSYNC_OK;
}

/* Whether the file has these bytes of the stores, and zeros elsewhere. */
static void judge(const unsigned char *bytes, size_t length, size_t kept)
{
    for (size_t i = 0; i < length; i++) {
        bool stored = i < kept && (i % 4096 == 0 || i % 4096 == 200);
        WANT(bytes[i] == (stored ? i / 4096 + 1 : 0));
    }
}

static void judge_committed(size_t length, size_t kept)
{
    static unsigned char found[CAPACITY];
    size_t done;
    handle = opened();
    WANT(famsync_file_length(handle, 1) == length);
    WANT_CODE(famsync_read(handle, 1, 0, found, sizeof found, &done), FAMSYNC_OK);
    WANT(done == length);
    judge(found, length, kept);
    WANT_CODE(famsync_read(handle, 0, 5, found, 1, NULL), FAMSYNC_OK);
    WANT(found[0] == 77);
    WANT_CODE(famsync_close(handle), FAMSYNC_OK);
}

/* To within a page that was stored to, and longer again. */
static void shrink(enum failure failure)
{
    (void)failure;
    WANT_CODE(famsync_setlength(handle, "a", 2 * 4096 + 100), FAMSYNC_OK);
    judge(at, 2 * 4096 + 100, LENGTH);
    WANT_CODE(famsync_setlength(handle, "a", 2 * 4096 + 300), FAMSYNC_OK);
    judge(at, 2 * 4096 + 300, 2 * 4096 + 100);
    WANT_CODE(famsync_msync(handle, NULL), FAMSYNC_OK);
    judge(at, 2 * 4096 + 300, 2 * 4096 + 100);
    end();
    judge_committed(2 * 4096 + 300, 2 * 4096 + 100);
}

/* The page of the old end was stored to. */
static void grow(enum failure failure)
{
    size_t length = 11 * 4096 + 7;
    WANT_CODE(famsync_setlength(handle, "a", length), FAMSYNC_OK);
    judge(at, length, LENGTH);
    if (failure == TOO_MANY) {
        WANT_CODE(famsync_msync(handle, NULL), FAMSYNC_NOFRAME);
        length = 2 * 4096 + 100;
        WANT_CODE(famsync_setlength(handle, "a", length), FAMSYNC_OK);
    }
    WANT_CODE(famsync_msync(handle, NULL), FAMSYNC_OK);
    judge(at, length, length < LENGTH ? length : LENGTH);
    end();
    judge_committed(length, length < LENGTH ? length : LENGTH);
}

/* What was shrunk is as it was. */
static void roll_back(enum failure failure)
{
    (void)failure;
    WANT_CODE(famsync_setlength(handle, "a", 2 * 4096 + 100), FAMSYNC_OK);
    WANT_CODE(famsync_rollback(handle), FAMSYNC_OK);
    WANT(famsync_memory_length(memory) == LENGTH && famsync_memory_dirty(memory) == 0 && other_at[5] == 0);
    judge(at, LENGTH, 0);
    at[0] = at[200] = 1;
    other_at[5] = 77;
    WANT_CODE(famsync_msync(handle, NULL), FAMSYNC_OK);
    end();
    judge_committed(LENGTH, 4096);
}

/* Whether the commit has failed. */
static bool fails_before(enum failure failure, void (*then)(enum failure), long nth)
{
    begin(failure);
    store();
    refused = nth;
    requests = 0;
    bool failed = fails(failure);
    if (failed)
        then(failure);
    else
        end();
    return failed;
}

/* Each request for memory is refused in turn. Answers how often the commit has failed. */
static unsigned each(enum failure failure, void (*then)(enum failure))
{
    unsigned failed = 0;
    if (failure != NO_MEMORY)
        return fails_before(failure, then, 0);
    for (long nth = 1; nth == 1 || requests >= nth - 1; nth++)
        failed += fails_before(failure, then, nth);
    return failed;
}

/* In which of these ways a session tracks stores; whether the system can. */
static bool is_set(unsigned way)
{
    famsync *tried;
    options = (struct famsync_options){.size = sizeof options, .foreground = 1, .resident = way == 1};
    if (way < 2)
        return true;
    options.tracking = FAMSYNC_TRACK_KERNEL;
    make_volume(1, "a=1");
    return famsync_open(volume, &options, &tried) == FAMSYNC_OK && famsync_close(tried) == FAMSYNC_OK;
}

int main(void)
{
    static void (*const THEN[])(enum failure) = {shrink, grow, roll_back};
    unsigned failed[FAILURES] = {0};
    for (unsigned way = 0; way < 3; way++)
        for (layout = FIRST_LAYOUT; is_set(way) && layout <= LAYOUTS; layout++)
            for (unsigned i = 0; i < 3; i++)
                for (enum failure failure = 0; failure < FAILURES; failure++)
                    failed[failure] += each(failure, THEN[i]);
    WANT(failed[TOO_MANY] > 0 && failed[NO_READ] > 0 && failed[NO_PROTECTION] > 0);
    WANT(failed[NO_MEMORY] > 0 || !has_own_malloc);
    printf("clients/c: failed_commits: %u had too many pages, %u no memory, %u a failed read, %u no protection\n",
           failed[TOO_MANY], failed[NO_MEMORY], failed[NO_READ], failed[NO_PROTECTION]);
    return 0;
}
