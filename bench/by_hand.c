/*
 * What the library does up to a commit's acknowledgement, by hand and for one file: a volume of layout 5 or 6
 * (docs/FORMATS.md), whose pages are stored to and committed by the same faults, copies and calls of the system, with
 * nothing around them.
 *
 * Plain memory is read-only until a page is stored to; where stores come to one page after the other, more are opened
 * at a time, and compared with their copies. A page is copied three times: from memory, to what is kept of the file,
 * and to its record. Pages that are written by a call are copied twice.
 */
#include "peers.h"

#include "log_by_hand.h"

#include <fcntl.h>
#include <signal.h>
#include <stdint.h>
#include <stdlib.h>
#include <string.h>
#include <sys/mman.h>
#include <sys/uio.h>
#include <unistd.h>

enum { CLOSED, STORED, OPENED };

#define MOST_AHEAD 32

/* A volume, which log by hand it has, and what is kept of its file. */
struct volume {
    const char *path;
    unsigned log;
    unsigned char *kept;
    int *stored; /* the pages that were stored to since the last commit, going up */
    int count;
};

static struct volume plain = {.path = "hand.vol"}, called = {.path = "hand_write.vol", .log = 1};

/* Plain memory of the first volume. */
static unsigned char *memory, *copy, *state;
static size_t first, last; /* the pages that were opened since the last commit, and some between them */
static size_t next, ahead;
static struct sigaction before;

static unsigned char *memory_of(size_t bytes)
{
    void *at = mmap(NULL, bytes, PROT_READ | PROT_WRITE, MAP_PRIVATE | MAP_ANONYMOUS, -1, 0);
    must(at != MAP_FAILED, "no memory");
    return at;
}

static void begin(struct volume *volume)
{
    size_t bytes = bytes_of_file();
    make_volume_file(volume->path);
    choose_log(volume->log);
    open_log(volume->path);
    volume->stored = calloc(bytes / PAGE, sizeof *volume->stored);
    must(volume->stored != NULL, volume->path);
    volume->kept = memory_of(bytes);
    memset(volume->kept, 0, bytes);
}

static void end(struct volume *volume)
{
    munmap(volume->kept, bytes_of_file());
    free(volume->stored);
    choose_log(volume->log);
    close_log();
}

static void write_commit(struct volume *volume)
{
    append_to_log(volume->stored, volume->count, volume->kept);
    volume->count = 0;
}

/* The first store to a page. */
static void on_fault(int number, siginfo_t *info, void *context)
{
    size_t at = (size_t)((uintptr_t)info->si_addr - (uintptr_t)memory), page = at / PAGE, count = 1;
    size_t most = page == next ? 2 * ahead : 1, all = bytes_of_file() / PAGE;
    if ((uintptr_t)info->si_addr < (uintptr_t)memory || at >= bytes_of_file()) {
        must(before.sa_flags & SA_SIGINFO, "a fault elsewhere");
        before.sa_sigaction(number, info, context);
        return;
    }
    most = most > MOST_AHEAD ? MOST_AHEAD : most;
    while (count < most && page + count < all && state[page + count] == CLOSED)
        count++;
    must(mprotect(memory + page * PAGE, count * PAGE, PROT_READ | PROT_WRITE) == 0, "mprotect");
    memset(state + page, OPENED, count);
    state[page] = STORED;
    first = first == last || page < first ? page : first;
    last = page + count > last ? page + count : last;
    next = page + count;
    ahead = count;
}

static void begin_plain(void)
{
    struct sigaction ours = {.sa_flags = SA_SIGINFO | SA_ONSTACK};
    size_t bytes = bytes_of_file();
    begin(&plain);
    memory = memory_of(bytes);
    copy = memory_of(bytes);
    state = calloc(bytes / PAGE, 1);
    must(state != NULL, "no memory");
    memset(memory, 0, bytes);
    memset(copy, 0, bytes);
    must(mprotect(memory, bytes, PROT_READ) == 0, "mprotect");
    ours.sa_sigaction = on_fault;
    sigfillset(&ours.sa_mask);
    must(sigaction(SIGSEGV, &ours, &before) == 0, "sigaction");
}

static void end_plain(void)
{
    must(sigaction(SIGSEGV, &before, NULL) == 0, "sigaction");
    munmap(memory, bytes_of_file());
    munmap(copy, bytes_of_file());
    free(state);
    end(&plain);
}

/* Closes the pages that are open, and finds those that were stored to. */
static void close_pages(void)
{
    must(mprotect(memory + first * PAGE, (last - first) * PAGE, PROT_READ) == 0, "mprotect");
    for (size_t page = first; page < last; page++)
        if (state[page] == STORED ||
            (state[page] == OPENED && memcmp(memory + page * PAGE, copy + page * PAGE, PAGE) != 0))
            plain.stored[plain.count++] = (int)page;
    memset(state + first, CLOSED, last - first);
    first = last = 0;
}

static void commit_plain(int number)
{
    for (int i = 0; i < pages.count; i++)
        memcpy(memory + page_of(i, number) * PAGE, &number, sizeof number);
    close_pages();
    for (int i = 0; i < plain.count; i++) {
        size_t at = (size_t)plain.stored[i] * PAGE;
        memcpy(copy + at, memory + at, PAGE);
    }
    choose_log(plain.log);
    write_commits_home(plain.kept);
    for (int i = 0; i < plain.count; i++) {
        size_t at = (size_t)plain.stored[i] * PAGE;
        memcpy(plain.kept + at, copy + at, PAGE);
    }
    write_commit(&plain);
}

static void finish_plain(void)
{
    choose_log(plain.log);
    empty_log(plain.kept);
}

static void begin_called(void)
{
    begin(&called);
}

static void commit_called(int number)
{
    static unsigned char page[PAGE];
    memcpy(page, &number, sizeof number);
    choose_log(called.log);
    write_commits_home(called.kept);
    for (int i = 0; i < pages.count; i++) {
        memcpy(called.kept + page_of(i, number) * PAGE, page, PAGE);
        called.stored[called.count++] = (int)page_of(i, number);
    }
    write_commit(&called);
}

static void finish_called(void)
{
    choose_log(called.log);
    empty_log(called.kept);
}

static void end_called(void)
{
    end(&called);
}

const struct way ways_by_hand[] = {
    {"hand", "hand.vol", begin_plain, commit_plain, finish_plain, end_plain},
    {"hand-write", "hand_write.vol", begin_called, commit_called, finish_called, end_called},
    {0},
};
