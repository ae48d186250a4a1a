/* Random stores, commits, rollbacks and lengths of one large file as plain memory, for a long time, beside a model.

   usage: long_random VOLUME MODEL SECONDS BUDGET [kernel] [COMMITS]

   The volume is of layout 5 with one file, `a`, and commits of at least 5,000 pages. BUDGET is in bytes. The model is a
   plain file that gets the same bytes by pwrite and the same lengths by ftruncate; before a page of it changes, its
   committed bytes are kept for a rollback. It ends after so many seconds or, if COMMITS is there, commits.

   After each round some places are compared with the model: random ones, and all that were stored to. Every five
   minutes, and at the end, the session is ended and another one begun, and the whole file is compared. The memory of
   the process that is its own (RssAnon) is looked at after each commit, and is to be at most:

     what it was when the memory was opened
     + 6 bytes for each page of the file's capacity, for notes
     + BUDGET
     + 3/2 times the most that the core had (`memory` of famsync_stat), since malloc keeps some of what was freed
     + 2 pages for each page of the last five commits, of which the first is written home: in the memory, and its copy
     + 4 MB

   With `kernel` committed pages aren't given back, and no limit is checked. Each minute it prints a line. */
#define _GNU_SOURCE
#include "famsync.h"

#include <errno.h>
#include <fcntl.h>
#include <stdbool.h>
#include <stdint.h>
#include <stdio.h>
#include <stdlib.h>
#include <string.h>
#include <sys/mman.h>
#include <time.h>
#include <unistd.h>

#define PAGE 4096u
#define MOST_RANGE (16 * PAGE) /* the most bytes that are stored or compared at once */
#define MOST_PAGES 5000u       /* the most pages of a commit */

static famsync *handle;
static famsync_memory *memory;
static unsigned char *at;
static uint64_t length, capacity, committed_length;
static struct famsync_options options;
static const char *volume;

/* What was committed of the pages that were stored to since, and places to compare. It is shared memory, so that it
   isn't counted with the library's. */
struct page_before {
    uint64_t number;
    unsigned char bytes[PAGE];
};
static int model;
static struct page_before *before;
static unsigned befores;
static unsigned char *is_kept; /* a bit for each page */

static uint64_t commits, rollbacks, refused, resizes, sessions, stores;
static double began;
static long most_own, most_over, own_at_open, most_core;

/* The pages of the last commits. */
#define LAST 5u
static unsigned last_pages[LAST];

static void must(bool holds, const char *what)
{
    if (holds)
        return;
    fprintf(stderr, "long_random: after %llu commits: %s (errno %s)\n", (unsigned long long)commits, what,
            strerror(errno));
    exit(1);
}

static void must_be(int code, const char *what)
{
    if (code != FAMSYNC_OK)
        fprintf(stderr, "%s: ", famsync_strerror(code));
    must(code == FAMSYNC_OK, what);
}

static double now(void)
{
    struct timespec time;
    clock_gettime(CLOCK_MONOTONIC, &time);
    return (double)time.tv_sec + (double)time.tv_nsec / 1e9;
}

/* xorshift64* */
static uint64_t state = 88172645463325252u;

static uint64_t random_number(void)
{
    state ^= state >> 12;
    state ^= state << 25;
    state ^= state >> 27;
    return state * 2685821657736338717u;
}

static uint64_t below(uint64_t most)
{
    return (random_number() >> 11) % most;
}

/* A line of /proc/self/status, in kilobytes. */
static long kilobytes(const char *name)
{
    char line[200];
    long found = -1;
    size_t count = strlen(name);
    FILE *file = fopen("/proc/self/status", "r");
    must(file != NULL, "/proc/self/status");
    while (fgets(line, sizeof line, file))
        if (strncmp(line, name, count) == 0 && line[count] == ':')
            found = atol(line + count + 1);
    fclose(file);
    return found;
}

static void *shared(size_t bytes)
{
    void *room = mmap(NULL, bytes, PROT_READ | PROT_WRITE, MAP_SHARED | MAP_ANONYMOUS | MAP_NORESERVE, -1, 0);
    must(room != MAP_FAILED, "memory of the model");
    return room;
}

/* Keeps the committed bytes of a page of the model, once. */
static void keep_before(uint64_t page)
{
    if (is_kept[page / 8] >> page % 8 & 1)
        return;
    must(befores < MOST_PAGES + 500, "more pages than a commit is to have");
    struct page_before *it = &before[befores++];
    it->number = page;
    memset(it->bytes, 0, PAGE);
    must(pread(model, it->bytes, PAGE, (off_t)(page * PAGE)) >= 0, "read of the model");
    is_kept[page / 8] |= (unsigned char)(1 << page % 8);
}

static void forget_before(void)
{
    for (unsigned i = 0; i < befores; i++)
        is_kept[before[i].number / 8] = 0;
    befores = 0;
}

/* The model as it was at the last commit. */
static void undo_model(void)
{
    must(ftruncate(model, (off_t)committed_length) == 0, "the model's length");
    for (unsigned i = 0; i < befores; i++) {
        uint64_t place = before[i].number * PAGE, count = PAGE;
        if (place >= committed_length)
            continue;
        if (count > committed_length - place)
            count = committed_length - place;
        must(pwrite(model, before[i].bytes, count, (off_t)place) == (ssize_t)count, "write of the model");
    }
    length = committed_length;
}

/* Compares a place of the memory with the model. */
static void compare(uint64_t from, uint64_t count)
{
    static unsigned char wanted[MOST_RANGE];
    if (from >= length)
        return;
    if (count > length - from)
        count = length - from;
    must(pread(model, wanted, count, (off_t)from) == (ssize_t)count, "read of the model");
    must(memcmp(at + from, wanted, count) == 0, "a byte differs from the model");
}

/* The same by famsync_read. */
static void compare_by_read(uint64_t from, uint64_t count)
{
    static unsigned char wanted[MOST_RANGE], found[MOST_RANGE];
    size_t done;
    if (from >= length)
        return;
    if (count > length - from)
        count = length - from;
    must(pread(model, wanted, count, (off_t)from) == (ssize_t)count, "read of the model");
    must_be(famsync_read(handle, 0, from, found, count, &done), "famsync_read");
    must(done == count && memcmp(found, wanted, count) == 0, "a byte that is read differs from the model");
}

static void compare_all(void)
{
    must(famsync_file_length(handle, 0) == length, "another length");
    for (uint64_t from = 0; from < length; from += MOST_RANGE)
        compare(from, MOST_RANGE);
}

/* Stores a range through the pointer or by a call: bytes that differ from place to place. */
static void store(uint64_t from, uint64_t count)
{
    static unsigned char bytes[MOST_RANGE];
    uint64_t seed = random_number(), step = random_number() | 1;
    if (from >= length)
        return;
    if (count > length - from)
        count = length - from;
    for (uint64_t i = 0; i < count; i += 8, seed += step)
        memcpy(bytes + i, &seed, 8);
    for (uint64_t page = from / PAGE; page <= (from + count - 1) / PAGE; page++)
        keep_before(page);
    if (below(8) == 0)
        must_be(famsync_write(handle, 0, from, bytes, count, NULL), "famsync_write");
    else
        memcpy(at + from, bytes, count);
    must(pwrite(model, bytes, count, (off_t)from) == (ssize_t)count, "write of the model");
    stores++;
}

/* A page anywhere, or one that was stored to since the last commit. */
static uint64_t some_page(void)
{
    return befores > 0 && below(8) == 0 ? before[below(befores)].number : below((length + PAGE - 1) / PAGE);
}

static void store_some(void)
{
    uint64_t page = some_page();
    switch (below(4)) {
    case 0: /* a word */
        store(page * PAGE + 8 * below(PAGE / 8), 8);
        break;
    case 1: /* some bytes, over the end of a page */
        store(page * PAGE + below(PAGE), 1 + below(2 * PAGE));
        break;
    case 2: /* a page */
        store(page * PAGE, PAGE);
        break;
    default: /* neighbours, one after the other */
        for (uint64_t i = 0, count = 1 + below(12); i < count; i++)
            store((page + i) * PAGE + below(PAGE / 2), 1 + below(PAGE / 2));
    }
}

/* Grows or shrinks the file by up to 200 pages; in the end it has its capacity. */
static void set_length(void)
{
    uint64_t by = below(200 * PAGE), old = length, wanted = below(3) ? length + by : length - by;
    if (wanted > capacity)
        wanted = capacity - below(2 * PAGE);
    if (befores + 202 > MOST_PAGES)
        return;
    for (uint64_t page = wanted / PAGE; page <= (old > 0 ? old - 1 : 0) / PAGE; page++)
        keep_before(page);
    if (wanted > old && old % PAGE != 0)
        keep_before(old / PAGE);
    int code = famsync_setlength(handle, "a", wanted);
    must_be(code, "famsync_setlength");
    must(ftruncate(model, (off_t)wanted) == 0, "the model's length");
    length = wanted;
    must(famsync_memory_length(memory) == length, "another length of memory");
    resizes++;
}

/* All that was stored to, and some places that weren't. */
static void compare_some(void)
{
    for (unsigned i = 0; i < befores; i++)
        compare(before[i].number * PAGE, PAGE);
    for (unsigned i = 0; i < 16; i++)
        compare(below(length), 1 + below(MOST_RANGE));
    compare_by_read(below(length), 1 + below(MOST_RANGE));
}

/* The process's own memory, beside what it may be. */
static void look_at_memory(void)
{
    struct famsync_stat stat = {.size = sizeof stat};
    uint64_t pages = 0;
    long own, most;
    must_be(famsync_stat(handle, &stat), "famsync_stat");
    for (unsigned i = 0; i < LAST; i++)
        pages += last_pages[i];
    own = kilobytes("RssAnon");
    most_core = (long)stat.memory / 1024 > most_core ? (long)stat.memory / 1024 : most_core;
    most = own_at_open + (long)((6 * (capacity / PAGE) + options.budget + 2 * pages * PAGE) / 1024) +
           most_core * 3 / 2 + 4096;
    most_own = own > most_own ? own : most_own;
    most_over = own - most > most_over ? own - most : most_over;
    if (own <= most || options.tracking == FAMSYNC_TRACK_KERNEL)
        return;
    fprintf(stderr, "own %ld KB, at most %ld; %llu pages; core %ld KB\n", own, most, (unsigned long long)pages,
            most_core);
    must(false, "more memory than it is to have");
}

static void commit(void)
{
    last_pages[commits % LAST] = befores;
    must_be(famsync_msync(handle, NULL), "famsync_msync");
    committed_length = length;
    commits++;
    look_at_memory();
    forget_before();
}

/* A length that waits may be what can't be undone. */
static void roll_back(void)
{
    int code = famsync_rollback(handle);
    if (code == FAMSYNC_STAGED && length != committed_length) {
        refused++;
        return;
    }
    if (code == FAMSYNC_STAGED) { /* a length was set, and set back */
        refused++;
        return;
    }
    must_be(code, "famsync_rollback");
    undo_model();
    must(famsync_memory_length(memory) == length, "another length after a rollback");
    for (unsigned i = 0; i < befores; i++)
        compare(before[i].number * PAGE, PAGE);
    forget_before();
    rollbacks++;
}

static void begin(void)
{
    int code = famsync_open(volume, &options, &handle);
    must_be(code, "famsync_open");
    must_be(famsync_memory_open(handle, "a", &memory), "famsync_memory_open");
    at = famsync_memory_at(memory);
    must(famsync_file_length(handle, 0) == length, "another length after the opening");
    own_at_open = sessions == 0 ? kilobytes("RssAnon") : own_at_open;
    sessions++;
}

/* What wasn't committed goes with the session. */
static void end(void)
{
    must_be(famsync_memory_close(memory), "famsync_memory_close");
    must_be(famsync_close(handle), "famsync_close");
    undo_model();
    forget_before();
}

static void print_line(void)
{
    struct famsync_stat stat = {.size = sizeof stat};
    must_be(famsync_stat(handle, &stat), "famsync_stat");
    printf(
        "%6.0f s: %llu commits, %llu rollbacks, %llu refused, %llu lengths, %llu stores, %llu sessions; "
        "%llu bytes; own %ld KB, most %ld, %ld below the limit; mapped %ld KB, tables %ld KB, core %llu KB, most %ld\n",
        now() - began, (unsigned long long)commits, (unsigned long long)rollbacks, (unsigned long long)refused,
        (unsigned long long)resizes, (unsigned long long)stores, (unsigned long long)sessions,
        (unsigned long long)length, kilobytes("RssAnon"), most_own, -most_over, kilobytes("RssFile"),
        kilobytes("VmPTE"), (unsigned long long)stat.memory / 1024, most_core);
    fflush(stdout);
}

/* Stores, most often a few and sometimes thousands, and then a commit or a rollback. */
static void round_of_calls(void)
{
    uint64_t count = below(20) == 0 ? below(1500) : below(60);
    for (uint64_t i = 0; i < count && befores + 30 < MOST_PAGES; i++)
        store_some();
    if (below(4) == 0)
        set_length();
    if (below(3) == 0)
        compare_some();
    if (below(5) == 0)
        roll_back();
    else
        commit();
    if (below(3) == 0)
        compare_some();
}

int main(int count, char **words)
{
    double seconds, minute = 60, session = 300;
    must(count >= 5, "usage: long_random VOLUME MODEL SECONDS BUDGET [kernel] [COMMITS]");
    volume = words[1];
    seconds = atof(words[3]);
    bool is_kernel = count > 5 && strcmp(words[5], "kernel") == 0;
    uint64_t most_commits = count > 5 + is_kernel ? strtoull(words[5 + is_kernel], NULL, 10) : UINT64_MAX;
    options = (struct famsync_options){.size = sizeof options,
                                       .budget = strtoull(words[4], NULL, 10),
                                       .tracking = is_kernel ? FAMSYNC_TRACK_KERNEL : FAMSYNC_TRACK_SIGNALS};
    model = open(words[2], O_RDWR | O_CREAT | O_TRUNC | O_CLOEXEC, 0600);
    must(model >= 0, "the model's file");
    must_be(famsync_open(volume, NULL, &handle), "famsync_open");
    length = committed_length = famsync_file_length(handle, 0);
    must(famsync_frames(handle) >= MOST_PAGES + 500, "commits of so few pages");
    must_be(famsync_close(handle), "famsync_close");
    capacity = getenv("CAPACITY") ? strtoull(getenv("CAPACITY"), NULL, 10) : length;
    must(ftruncate(model, (off_t)length) == 0, "the model's length");
    before = shared((MOST_PAGES + 500) * sizeof *before);
    is_kept = shared(capacity / PAGE / 8 + 1);
    began = now();
    most_over = -(1l << 40);
    begin();
    while (now() - began < seconds && commits < most_commits) {
        round_of_calls();
        if (now() - began > minute) {
            print_line();
            minute += 60;
        }
        if (now() - began > session) {
            end();
            begin();
            compare_all();
            session = now() - began + 300;
        }
    }
    print_line();
    end();
    begin();
    compare_all();
    print_line();
    end();
    printf("long_random: %llu commits, %llu rollbacks, %llu lengths in %.0f s: no byte differs; own memory at most "
           "%ld KB\n",
           (unsigned long long)commits, (unsigned long long)rollbacks, (unsigned long long)resizes, now() - began,
           most_own);
    return 0;
}
