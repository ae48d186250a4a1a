/*
 * Commits of pages apart in plain memory of some size, in both ways of tracking, for bench/peers --apart:
 *
 *   signals       the library: the first store to a page raises SIGSEGV
 *   kernel        the library: the kernel notes stores
 *   hand-signals  by hand, the same way: a private mapping of the file, whose pages a handler opens; a commit
 *                 closes all pages from the first open one to the last by one call
 *   hand-pages    the same, and a commit closes each page by a call of its own
 *   hand-kernel   by hand: userfaultfd with asynchronous write protection, and two scans for each commit, of which the
 *                 second one finds stores that came as pages were copied
 *
 * The volumes of the library have layout 5. By hand there is a file with one journal (layout 1 of docs/FORMATS.md),
 * since a commit makes the same calls for it up to its acknowledgement. A page is copied once, into the journal's bytes,
 * and written home from there. Each file begins as a hole, and each way loads each page of its memory before the first
 * commit.
 */
#include "peers.h"

#include <famsync.h>

#include <fcntl.h>
#include <linux/userfaultfd.h>
#include <signal.h>
#include <stdint.h>
#include <stdio.h>
#include <stdlib.h>
#include <string.h>
#include <sys/ioctl.h>
#include <sys/mman.h>
#include <sys/syscall.h>
#include <sys/uio.h>
#include <time.h>
#include <unistd.h>

#define SLOTS 1020
#define GATE ((off_t)PAGE)
#define DESCRIPTOR ((off_t)PAGE * 2)
#define HOME (3 + SLOTS)

/* What a store to a clean page took, on the average of a commit's pages, in the best turn of a way. */
struct stores {
    double least;
};

static void load_all(const unsigned char *at)
{
    volatile unsigned char sum = 0;
    for (size_t page = 0; page < bytes_of_file() / PAGE; page++)
        sum = (unsigned char)(sum + at[page * PAGE]);
}

static double now(void)
{
    struct timespec time;
    clock_gettime(CLOCK_MONOTONIC, &time);
    return (double)time.tv_sec * 1e6 + (double)time.tv_nsec / 1e3;
}

/* Stores to the pages, and keeps the least time that a store took on the average. */
static void store_words(unsigned char *at, int number, struct stores *stores)
{
    double began = now(), each;
    for (int i = 0; i < pages.count; i++)
        memcpy(at + (size_t)i * pages.apart * PAGE, &number, sizeof number);
    each = (now() - began) / pages.count;
    if (stores->least == 0 || each < stores->least)
        stores->least = each;
}

static void print_stores(const char *name, const struct stores *stores)
{
    if (getenv("STORES"))
        fprintf(stderr, "%s: %d pages of %zu MB: a store %.2f us\n", name, pages.count, bytes_of_file() >> 20,
                stores->least);
}

/* The library. */
struct session {
    const char *name, *path;
    int tracking;
    famsync *handle;
    famsync_memory *memory;
    struct stores stores;
};

static struct session by_signals = {.name = "signals", .path = "signals.vol", .tracking = FAMSYNC_TRACK_SIGNALS},
                      by_kernel = {.name = "kernel", .path = "kernel.vol", .tracking = FAMSYNC_TRACK_KERNEL};

static void begin_session(struct session *session)
{
    struct famsync_options options = {.size = sizeof options, .tracking = session->tracking};
    make_hole(session->path);
    must(famsync_open(session->path, &options, &session->handle) == FAMSYNC_OK, "famsync_open");
    must(famsync_memory_open(session->handle, "a", &session->memory) == FAMSYNC_OK, "famsync_memory_open");
    load_all(famsync_memory_at(session->memory));
}

static void commit_session(struct session *session, int number)
{
    store_words(famsync_memory_at(session->memory), number, &session->stores);
    must(famsync_msync(session->handle, NULL) == FAMSYNC_OK, "famsync_msync");
}

static void end_session(struct session *session)
{
    must(famsync_memory_close(session->memory) == FAMSYNC_OK, "famsync_memory_close");
    must(famsync_close(session->handle) == FAMSYNC_OK, "famsync_close");
    print_stores(session->name, &session->stores);
}

static void begin_signals(void)
{
    begin_session(&by_signals);
}

static void commit_signals(int number)
{
    commit_session(&by_signals, number);
}

static void finish_signals(void)
{
    wait_until_home(by_signals.path);
}

static void end_signals(void)
{
    end_session(&by_signals);
}

static void begin_kernel(void)
{
    begin_session(&by_kernel);
}

static void commit_kernel(int number)
{
    commit_session(&by_kernel, number);
}

static void finish_kernel(void)
{
    wait_until_home(by_kernel.path);
}

static void end_kernel(void)
{
    end_session(&by_kernel);
}

/* By hand. */
struct hand {
    const char *name, *path;
    int file;
    unsigned char *memory, *journal;
    unsigned char *state; /* for each page, whether it was stored to */
    size_t first, last;   /* the pages that were stored to, and those between them */
    int stored[SLOTS];    /* those of the commit, in rising order */
    int count;
    uint64_t mark;
    int faults, map; /* of the kernel's tracking */
    struct stores stores;
};

static struct hand spans = {.name = "hand-signals", .path = "hand_signals.vol"},
                   singles = {.name = "hand-pages", .path = "hand_pages.vol"},
                   scanned = {.name = "hand-kernel", .path = "hand_kernel.vol"};
static struct sigaction before;
static int handlers;

static void *anonymous(size_t bytes)
{
    void *at = mmap(NULL, bytes, PROT_READ | PROT_WRITE, MAP_PRIVATE | MAP_ANONYMOUS, -1, 0);
    must(at != MAP_FAILED, "no memory");
    return at;
}

static void put_number(unsigned char *bytes, unsigned count, uint64_t number)
{
    for (unsigned i = count; i > 0; i--, number >>= 8)
        bytes[i - 1] = (unsigned char)number;
}

static void begin_hand(struct hand *hand, int protection)
{
    hand->file = open(hand->path, O_RDWR | O_CREAT | O_TRUNC, 0666);
    must(hand->file >= 0, hand->path);
    must(ftruncate(hand->file, (off_t)HOME * PAGE + (off_t)bytes_of_file()) == 0, hand->path);
    hand->memory = mmap(NULL, bytes_of_file(), protection, MAP_PRIVATE | MAP_NORESERVE, hand->file, (off_t)HOME * PAGE);
    must(hand->memory != MAP_FAILED, "mmap");
    hand->journal = anonymous((size_t)(1 + SLOTS) * PAGE);
    hand->state = anonymous(bytes_of_file() / PAGE);
}

static void end_hand(struct hand *hand)
{
    munmap(hand->memory, bytes_of_file());
    munmap(hand->journal, (size_t)(1 + SLOTS) * PAGE);
    munmap(hand->state, bytes_of_file() / PAGE);
    must(close(hand->file) == 0, "close");
    print_stores(hand->name, &hand->stores);
}

static void put_gate(const struct hand *hand, unsigned char gate)
{
    must(pwrite(hand->file, &gate, 1, GATE) == 1 && fdatasync(hand->file) == 0, "gate");
}

static void note(struct hand *hand, size_t page)
{
    hand->state[page] = 1;
    hand->first = hand->first == hand->last || page < hand->first ? page : hand->first;
    hand->last = page + 1 > hand->last ? page + 1 : hand->last;
}

/* Copies the pages that were stored to into the journal. */
static void copy_pages(struct hand *hand)
{
    for (size_t page = hand->first; page < hand->last; page++) {
        const unsigned char *found = memchr(hand->state + page, 1, hand->last - page);
        if (!found)
            break;
        page = (size_t)(found - hand->state);
        hand->state[page] = 0;
        memcpy(hand->journal + (size_t)(1 + hand->count) * PAGE, hand->memory + page * PAGE, PAGE);
        hand->stored[hand->count++] = (int)page;
    }
    hand->first = hand->last = 0;
}

static void write_journal(struct hand *hand)
{
    size_t length = (size_t)(1 + hand->count) * PAGE;
    struct iovec range = {hand->journal, length};
    memset(hand->journal, 0, PAGE);
    put_number(hand->journal, 8, ++hand->mark);
    put_number(hand->journal + 8, 4, (uint64_t)hand->count);
    for (int i = 0; i < hand->count; i++)
        put_number(hand->journal + 16 + 4 * i, 4, (uint64_t)(HOME + hand->stored[i]));
    must(pwritev(hand->file, &range, 1, DESCRIPTOR) == (ssize_t)length, "pwritev");
    must(fdatasync(hand->file) == 0, "fdatasync");
    put_gate(hand, 0xa7);
}

static void write_home(struct hand *hand)
{
    for (int i = 0; i < hand->count; i++) {
        struct iovec range = {hand->journal + (size_t)(1 + i) * PAGE, PAGE};
        must(pwritev(hand->file, &range, 1, (off_t)PAGE * (HOME + hand->stored[i])) == PAGE, "pwritev");
    }
    must(fdatasync(hand->file) == 0, "fdatasync");
    put_gate(hand, 0);
    hand->count = 0;
}

static bool open_page_at(struct hand *hand, uintptr_t place)
{
    uintptr_t at = (uintptr_t)hand->memory;
    size_t page = (place - at) / PAGE;
    if (!hand->memory || place < at || place >= at + bytes_of_file())
        return false;
    must(mprotect(hand->memory + page * PAGE, PAGE, PROT_READ | PROT_WRITE) == 0, "mprotect");
    note(hand, page);
    return true;
}

static void on_fault(int number, siginfo_t *info, void *context)
{
    uintptr_t place = (uintptr_t)info->si_addr;
    if (open_page_at(&spans, place) || open_page_at(&singles, place))
        return;
    must(before.sa_flags & SA_SIGINFO, "a fault elsewhere");
    before.sa_sigaction(number, info, context);
}

/* A page is stored to while all are one mapping, so that pages which are opened apart become one mapping again as they
   are closed: else a process soon has as many mappings as the system allows. */
static void begin_protected(struct hand *hand)
{
    struct sigaction ours = {.sa_flags = SA_SIGINFO | SA_ONSTACK};
    begin_hand(hand, PROT_READ | PROT_WRITE);
    *(volatile unsigned char *)hand->memory = 0;
    must(mprotect(hand->memory, bytes_of_file(), PROT_READ) == 0, "mprotect");
    ours.sa_sigaction = on_fault;
    sigfillset(&ours.sa_mask);
    if (handlers++ == 0)
        must(sigaction(SIGSEGV, &ours, &before) == 0, "sigaction");
    load_all(hand->memory);
}

static void end_protected(struct hand *hand)
{
    if (--handlers == 0)
        must(sigaction(SIGSEGV, &before, NULL) == 0, "sigaction");
    end_hand(hand);
}

static void begin_spans(void)
{
    begin_protected(&spans);
}

static void commit_spans(int number)
{
    store_words(spans.memory, number, &spans.stores);
    must(mprotect(spans.memory + spans.first * PAGE, (spans.last - spans.first) * PAGE, PROT_READ) == 0, "mprotect");
    copy_pages(&spans);
    write_journal(&spans);
}

static void finish_spans(void)
{
    write_home(&spans);
}

static void end_spans(void)
{
    end_protected(&spans);
}

static void begin_singles(void)
{
    begin_protected(&singles);
}

static void commit_singles(int number)
{
    store_words(singles.memory, number, &singles.stores);
    for (size_t page = singles.first; page < singles.last; page++) {
        const unsigned char *found = memchr(singles.state + page, 1, singles.last - page);
        if (!found)
            break;
        page = (size_t)(found - singles.state);
        must(mprotect(singles.memory + page * PAGE, PAGE, PROT_READ) == 0, "mprotect");
    }
    copy_pages(&singles);
    write_journal(&singles);
}

static void finish_singles(void)
{
    write_home(&singles);
}

static void end_singles(void)
{
    end_protected(&singles);
}

/* Of linux/userfaultfd.h and linux/fs.h, which may be older than the system. */
#define USER_FAULTS 1
#define FEATURES (1ull << 0 | 1ull << 13 | 1ull << 15)
#define WRITTEN (1ull << 1)

struct region {
    uint64_t begin, end, categories;
};

struct scan {
    uint64_t size, flags, begin, end, walk_end, regions, most_regions, most_pages, inverted, mask, any_of, answered;
};

#define SCAN _IOWR('f', 16, struct scan)
#define REGIONS 256

/* Notes the pages that were stored to, and protects them again. */
static void scan(struct hand *hand)
{
    static struct region region[REGIONS];
    uint64_t begin = (uintptr_t)hand->memory, end = begin + bytes_of_file();
    while (begin < end) {
        struct scan scan = {.size = sizeof scan,
                            .flags = 3,
                            .begin = begin,
                            .end = end,
                            .regions = (uintptr_t)region,
                            .most_regions = REGIONS,
                            .mask = WRITTEN,
                            .answered = WRITTEN};
        int count = ioctl(hand->map, SCAN, &scan);
        must(count >= 0, "PAGEMAP_SCAN");
        for (int i = 0; i < count; i++)
            for (uint64_t at = region[i].begin; at < region[i].end; at += PAGE)
                note(hand, (at - (uintptr_t)hand->memory) / PAGE);
        begin = scan.walk_end;
    }
}

static void begin_scanned(void)
{
    struct uffdio_api api = {.api = UFFD_API, .features = FEATURES};
    begin_hand(&scanned, PROT_READ | PROT_WRITE);
    scanned.faults = (int)syscall(SYS_userfaultfd, O_CLOEXEC | O_NONBLOCK | USER_FAULTS);
    scanned.map = open("/proc/self/pagemap", O_RDONLY | O_CLOEXEC);
    must(scanned.faults >= 0 && scanned.map >= 0 && ioctl(scanned.faults, UFFDIO_API, &api) == 0, "userfaultfd");
    struct uffdio_register range = {.range = {(uintptr_t)scanned.memory, bytes_of_file()},
                                    .mode = UFFDIO_REGISTER_MODE_WP};
    must(ioctl(scanned.faults, UFFDIO_REGISTER, &range) == 0, "UFFDIO_REGISTER");
    scan(&scanned);
    memset(scanned.state, 0, bytes_of_file() / PAGE);
    scanned.first = scanned.last = 0;
    load_all(scanned.memory);
}

static void commit_scanned(int number)
{
    store_words(scanned.memory, number, &scanned.stores);
    scan(&scanned);
    copy_pages(&scanned);
    scan(&scanned);
    must(scanned.first == scanned.last, "nobody stores meanwhile");
    write_journal(&scanned);
}

static void finish_scanned(void)
{
    write_home(&scanned);
}

static void end_scanned(void)
{
    end_hand(&scanned);
    close(scanned.faults);
    close(scanned.map);
}

const struct way ways_tracked[] = {
    {"signals", "signals.vol", begin_signals, commit_signals, finish_signals, end_signals},
    {"kernel", "kernel.vol", begin_kernel, commit_kernel, finish_kernel, end_kernel},
    {"hand-signals", NULL, begin_spans, commit_spans, finish_spans, end_spans},
    {"hand-pages", NULL, begin_singles, commit_singles, finish_singles, end_singles},
    {"hand-kernel", NULL, begin_scanned, commit_scanned, finish_scanned, end_scanned},
    {0},
};
