/* Plain memory that is the volume's own file: nothing is read to open it, committed pages are given back past a budget,
   and no page shows other bytes than those that were committed last. */
#include "test.h"

#include <sys/mman.h>

#define PAGES 2048u

/* Mappings of files with one of these flags fail by this errno, where it isn't 0. */
static int refused, refused_flags;

BEFORE_SANITIZERS void *mmap(void *at, size_t length, int protection, int flags, int file, off_t offset)
{
    if (file >= 0 && refused != 0 && (flags & refused_flags) != 0) {
        errno = refused;
        return MAP_FAILED;
    }
    return other_mmap(at, length, protection, flags, file, offset);
}

static famsync_memory *memory_of(famsync *handle)
{
    famsync_memory *memory;
    WANT_CODE(famsync_memory_open(handle, "a", &memory), FAMSYNC_OK);
    return memory;
}

static void end(famsync *handle, famsync_memory *memory)
{
    WANT_CODE(famsync_memory_close(memory), FAMSYNC_OK);
    WANT_CODE(famsync_close(handle), FAMSYNC_OK);
}

/* The pages of this process in some memory that are its own, and how many mappings the memory is. */
static size_t own_pages(const unsigned char *at, size_t length, unsigned *mappings)
{
    FILE *file = fopen("/proc/self/smaps", "re");
    char line[512];
    unsigned long begin = 0, finish = 0, first, second, kilobytes = 0;
    WANT(file != NULL);
    *mappings = 0;
    while (fgets(line, sizeof line, file)) {
        if (sscanf(line, "%lx-%lx ", &first, &second) == 2) {
            begin = first;
            finish = second;
            *mappings += begin >= (uintptr_t)at && finish <= (uintptr_t)at + length;
        } else if (sscanf(line, "Anonymous: %lu", &first) == 1 && begin >= (uintptr_t)at &&
                   finish <= (uintptr_t)at + length) {
            kilobytes += first;
        }
    }
    WANT(fclose(file) == 0);
    return kilobytes / 4;
}

static uint64_t reads_of(famsync *handle)
{
    struct famsync_stat stat = {.size = sizeof stat};
    WANT_CODE(famsync_stat(handle, &stat), FAMSYNC_OK);
    return stat.reads;
}

static void reads_nothing(void)
{
    unsigned mappings;
    make_hole_of(FIRST_LAYOUT, 64, "a=1073741824");
    famsync *handle = opened();
    uint64_t before = reads_of(handle);
    famsync_memory *memory = memory_of(handle);
    unsigned char *at = famsync_memory_at(memory);
    WANT(reads_of(handle) - before <= 2 && own_pages(at, 1u << 30, &mappings) == 0);
    at[0] = at[500000000] = at[1073741823] = 1;
    WANT(famsync_memory_dirty(memory) == 3);
    WANT_CODE(famsync_msync(handle, NULL), FAMSYNC_OK);
    WANT(own_pages(at, 1u << 30, &mappings) == 3);
    end(handle, memory);
    handle = opened();
    memory = memory_of(handle);
    at = famsync_memory_at(memory);
    WANT(at[0] == 1 && at[500000000] == 1 && at[1073741823] == 1 && at[1] == 0 && at[1073741822] == 0);
    end(handle, memory);
}

/* What a file has in its pages, one number in each. */
static uint64_t numbers[PAGES];

static void judge_numbers(const unsigned char *at)
{
    for (size_t page = 0; page < PAGES; page++)
        WANT(memcmp(at + 4096 * page + 8 * (page % 512), &numbers[page], 8) == 0);
}

static void store_number(unsigned char *at, size_t page, uint64_t number)
{
    numbers[page] = number;
    memcpy(at + 4096 * page + 8 * (page % 512), &number, 8);
}

/* Beyond the budget those pages alone are kept that aren't written home; in the background all of them are, soon. */
static void keeps_to_budget(unsigned layout, int foreground)
{
    enum { BUDGET = 10, STORED = 16 };
    unsigned mappings;
    size_t own = 0;
    make_volume_of(layout, 20, "a=8388608");
    memset(numbers, 0, sizeof numbers);
    famsync *handle = opened_with((struct famsync_options){
        .size = sizeof(struct famsync_options), .foreground = foreground, .budget = 2 * 4096 * BUDGET});
    famsync_memory *memory = memory_of(handle);
    unsigned char *at = famsync_memory_at(memory);
    for (uint64_t round = 1; round <= 60; round++) {
        for (unsigned i = 0; i < STORED; i++)
            store_number(at, (size_t)rand() % (i < 4 ? 20 : PAGES), round);
        WANT_CODE(famsync_msync(handle, NULL), FAMSYNC_OK);
        own = own_pages(at, 4096 * PAGES, &mappings);
        WANT(own <= BUDGET + 5 * STORED && mappings == 1);
        if (round % 10 == 0)
            judge_numbers(at);
    }
    for (unsigned waited = 0; !foreground && own > BUDGET; waited++) {
        WANT(waited < 10000 && usleep(1000) == 0);
        own = own_pages(at, 4096 * PAGES, &mappings);
    }
    judge_numbers(at);
    end(handle, memory);
    handle = opened();
    memory = memory_of(handle);
    judge_numbers(famsync_memory_at(memory));
    end(handle, memory);
}

/* The first block of the file `a` of a volume that has nothing before it but the log and the lengths. */
static off_t home_of(unsigned records)
{
    return (off_t)(first_home(records) + 1) * 4096;
}

static bool is_all(const unsigned char *at, size_t count, unsigned char value)
{
    for (size_t i = 0; i < count; i++)
        if (at[i] != value)
            return false;
    return true;
}

/* What the last block has past the file's end is never seen, also once the file grows. */
static void bytes_past_the_end(int resident)
{
    unsigned char block[4096];
    make_volume_of(FIRST_LAYOUT, 20, "a=5000/40000");
    memset(block, 9, sizeof block);
    int file = open(volume, O_WRONLY | O_CLOEXEC);
    WANT(pwrite(file, block, sizeof block, home_of(20) + 4096) == 4096 && close(file) == 0);
    famsync *handle = opened_with((struct famsync_options){
        .size = sizeof(struct famsync_options), .foreground = 1, .resident = resident, .budget = 1});
    famsync_memory *memory = memory_of(handle);
    unsigned char *at = famsync_memory_at(memory);
    WANT(is_all(at + 4096, 904, 9) && is_all(at + 5000, 3192, 0));
    for (unsigned char round = 1; round < 9; round++) {
        at[round] = round;
        if (round % 2 == 0)
            at[4096] = round;
        WANT_CODE(famsync_msync(handle, NULL), FAMSYNC_OK);
        WANT(is_all(at + 4097, 903, 9) && is_all(at + 5000, 3192, 0));
    }
    WANT_CODE(famsync_setlength(handle, "a", 8192), FAMSYNC_OK);
    WANT_CODE(famsync_msync(handle, NULL), FAMSYNC_OK);
    WANT(is_all(at + 5000, 3192, 0));
    end(handle, memory);
    handle = opened();
    memory = memory_of(handle);
    at = famsync_memory_at(memory);
    WANT(is_all(at + 4097, 903, 9) && is_all(at + 5000, 3192, 0));
    end(handle, memory);
}

/* A page that was committed whole is the last one then, and keeps zeros past the end. */
static void cut_within_a_page(void)
{
    make_volume_of(FIRST_LAYOUT, 20, "a=8192/40000");
    famsync *handle = opened_with(
        (struct famsync_options){.size = sizeof(struct famsync_options), .foreground = 1, .budget = 1});
    famsync_memory *memory = memory_of(handle);
    unsigned char *at = famsync_memory_at(memory);
    memset(at, 7, 8192);
    WANT_CODE(famsync_msync(handle, NULL), FAMSYNC_OK);
    WANT_CODE(famsync_setlength(handle, "a", 5000), FAMSYNC_OK);
    for (unsigned round = 0; round < 8; round++) {
        at[0] = (unsigned char)round;
        WANT_CODE(famsync_msync(handle, NULL), FAMSYNC_OK);
        WANT(is_all(at + 1, 4999, 7) && is_all(at + 5000, 3192, 0));
    }
    end(handle, memory);
}

/* Pages that were cut off don't count to the budget, which has room for those of the other file. */
static void cut_pages_dont_count(void)
{
    unsigned mappings;
    famsync_memory *other;
    make_volume_of(FIRST_LAYOUT, 40, "a=8192/409600 b=409600");
    famsync *handle = opened_with(
        (struct famsync_options){.size = sizeof(struct famsync_options), .foreground = 1, .budget = 30 * 8192});
    famsync_memory *memory = memory_of(handle);
    WANT_CODE(famsync_memory_open(handle, "b", &other), FAMSYNC_OK);
    unsigned char *at = famsync_memory_at(other);
    WANT_CODE(famsync_setlength(handle, "a", 100000), FAMSYNC_OK);
    WANT_CODE(famsync_msync(handle, NULL), FAMSYNC_OK);
    WANT_CODE(famsync_setlength(handle, "a", 8192), FAMSYNC_OK);
    memset(at, 7, 20 * 4096);
    for (unsigned round = 0; round < 8; round++) {
        at[0] = (unsigned char)round;
        WANT_CODE(famsync_msync(handle, NULL), FAMSYNC_OK);
    }
    WANT(own_pages(at, 409600, &mappings) == 20);
    WANT_CODE(famsync_memory_close(other), FAMSYNC_OK);
    end(handle, memory);
}

/* Bytes that were cut off, and are stored again once the file has grown: they are what the blocks have, and what was
   committed are zeros. */
static void same_bytes_again(unsigned layout)
{
    make_volume_of(layout, 20, "a=49152");
    famsync *handle = opened_with((struct famsync_options){.foreground = 1});
    famsync_memory *memory = memory_of(handle);
    unsigned char *at = famsync_memory_at(memory);
    memset(at, 7, 49152);
    WANT_CODE(famsync_msync(handle, NULL), FAMSYNC_OK);
    WANT_CODE(famsync_setlength(handle, "a", 4096), FAMSYNC_OK);
    for (unsigned round = 0; round < 5; round++) { /* so that the first commit is written home */
        at[0] = (unsigned char)round;
        WANT_CODE(famsync_msync(handle, NULL), FAMSYNC_OK);
    }
    WANT_CODE(famsync_setlength(handle, "a", 49152), FAMSYNC_OK);
    for (size_t i = 0; i < 49152; i++)
        ((volatile unsigned char *)at)[i] = 7;
    WANT_CODE(famsync_msync(handle, NULL), FAMSYNC_OK);
    WANT(is_all(at, 49152, 7));
    end(handle, memory);
    handle = opened();
    memory = memory_of(handle);
    WANT(is_all(famsync_memory_at(memory), 49152, 7));
    end(handle, memory);
}

/* A forked process with a copy of the memory doesn't keep the volume in use, also if its parent ends by a kill. */
static void child_is_left(int resident)
{
    int status, ends[2], more[2];
    char byte;
    make_volume_of(FIRST_LAYOUT, 20, "a=65536");
    WANT(pipe(ends) == 0 && pipe(more) == 0);
    pid_t parent = fork();
    if (parent == 0) {
        alarm(60);
        famsync *handle = opened_with(
            (struct famsync_options){.size = sizeof(struct famsync_options), .foreground = 1, .resident = resident});
        unsigned char *at = famsync_memory_at(memory_of(handle));
        at[0] = 1;
        if (fork() == 0) {
            alarm(60);
            at[1] = at[5000] = 2;
            WANT(close(more[1]) == 0 && write(ends[1], at, 1) == 1);
            _exit((int)read(more[0], &byte, 1)); /* once the other ends of it are closed */
        }
        pause();
    }
    WANT(close(ends[1]) == 0 && read(ends[0], &byte, 1) == 1 && byte == 1);
    WANT(kill(parent, SIGKILL) == 0 && waitpid(parent, &status, 0) == parent);
    famsync *handle = opened();
    famsync_memory *memory = memory_of(handle);
    WANT(is_all(famsync_memory_at(memory), 65536, 0));
    end(handle, memory);
    WANT(close(ends[0]) == 0 && close(more[0]) == 0 && close(more[1]) == 0);
}

/* A child's copy of memory that was read in stays as it was; its stores reach nothing. */
static void child_has_a_copy(void)
{
    int status, ends[2];
    make_volume_of(FIRST_LAYOUT, 20, "a=65536");
    famsync *handle = opened_with(
        (struct famsync_options){.size = sizeof(struct famsync_options), .foreground = 1, .resident = 1});
    famsync_memory *memory = memory_of(handle);
    unsigned char *at = famsync_memory_at(memory);
    WANT(pipe(ends) == 0);
    pid_t child = fork();
    if (child == 0) {
        char byte;
        alarm(60);
        at[4096] = 9;
        WANT(close(ends[1]) == 0 && read(ends[0], &byte, 1) == 0);
        _exit(at[0] == 0 && at[4096] == 9 ? 0 : 1);
    }
    at[0] = 1;
    WANT_CODE(famsync_msync(handle, NULL), FAMSYNC_OK);
    WANT(close(ends[0]) == 0 && close(ends[1]) == 0);
    WANT(waitpid(child, &status, 0) == child && status == 0 && at[4096] == 0);
    end(handle, memory);
}

/* What famsync_write wrote before is in memory that is opened, whether or not it was committed and written home. */
static void opened_beside_writes(unsigned layout)
{
    static unsigned char bytes[12288];
    make_volume_of(layout, 20, "a=65536");
    famsync *handle = opened_with(
        (struct famsync_options){.size = sizeof(struct famsync_options), .foreground = 1, .budget = 1});
    for (unsigned char round = 1; round < 9; round++) {
        memset(bytes, round, sizeof bytes);
        WANT_CODE(famsync_write(handle, 0, 4096, bytes, sizeof bytes, NULL), FAMSYNC_OK);
        if (round % 2 == 0)
            WANT_CODE(famsync_msync(handle, NULL), FAMSYNC_OK);
        WANT_CODE(famsync_write(handle, 0, 8192, "other", 5, NULL), FAMSYNC_OK);
        famsync_memory *memory = memory_of(handle);
        unsigned char *at = famsync_memory_at(memory);
        for (unsigned commits = 0; commits < 6; commits++) {
            WANT(is_all(at + 4096, 4096, round) && memcmp(at + 8192, "other", 5) == 0);
            WANT(is_all(at + 8197, 8187, round) && is_all(at + 16384, 4096, 0));
            WANT(famsync_memory_dirty(memory) == 0);
            at[0] = (unsigned char)(16 * round + commits);
            WANT_CODE(famsync_msync(handle, NULL), FAMSYNC_OK);
        }
        WANT_CODE(famsync_memory_close(memory), FAMSYNC_OK);
    }
    WANT_CODE(famsync_close(handle), FAMSYNC_OK);
}

/* A file that the system can't map, or not as shared memory, is read in. */
static void cant_be_mapped(int flags, int error)
{
    famsync_memory *memory;
    make_volume_of(FIRST_LAYOUT, 20, "a=65536");
    famsync *handle = opened();
    WANT_CODE(famsync_write(handle, 0, 5000, "other", 5, NULL), FAMSYNC_OK);
    WANT_CODE(famsync_msync(handle, NULL), FAMSYNC_OK);
    refused_flags = flags;
    refused = ENOMEM;
    WANT_CODE(famsync_memory_open(handle, "a", &memory), FAMSYNC_NOMEMORY);
    refused = error;
    uint64_t before = reads_of(handle);
    WANT_CODE(famsync_memory_open(handle, "a", &memory), FAMSYNC_OK);
    refused = 0;
    unsigned char *at = famsync_memory_at(memory);
    WANT(reads_of(handle) > before && is_all(at, 5000, 0) && memcmp(at + 5000, "other", 5) == 0);
    at[0] = 1;
    WANT_CODE(famsync_msync(handle, NULL), FAMSYNC_OK);
    end(handle, memory);
    handle = opened();
    memory = memory_of(handle);
    at = famsync_memory_at(memory);
    WANT(at[0] == 1 && memcmp(at + 5000, "other", 5) == 0);
    end(handle, memory);
}

/* Somebody cuts the volume's file off: a load raises SIGBUS, unless the file was read in. */
static void cut_off(int resident)
{
    int status;
    make_volume_of(FIRST_LAYOUT, 20, "a=65536");
    pid_t child = fork();
    if (child == 0) {
        alarm(60);
        signal(SIGBUS, SIG_DFL);
        famsync *handle = opened_with(
            (struct famsync_options){.size = sizeof(struct famsync_options), .foreground = 1, .resident = resident});
        volatile unsigned char *at = famsync_memory_at(memory_of(handle));
        WANT(truncate(volume, 4096) == 0);
        _exit(at[30000]);
    }
    WANT(waitpid(child, &status, 0) == child);
    WANT(resident ? status == 0 : WIFSIGNALED(status) && WTERMSIG(status) == SIGBUS);
}

int main(void)
{
    reads_nothing();
    cant_be_mapped(MAP_SHARED | MAP_PRIVATE, ENODEV);
    cant_be_mapped(MAP_SHARED, ENODEV);
    cant_be_mapped(MAP_PRIVATE, EACCES);
    for (unsigned layout = FIRST_LAYOUT; layout <= LAYOUTS; layout++) {
        keeps_to_budget(layout, 0);
        keeps_to_budget(layout, 1);
        opened_beside_writes(layout);
        same_bytes_again(layout);
    }
    for (int resident = 0; resident < 2; resident++) {
        bytes_past_the_end(resident);
        cut_off(resident);
        child_is_left(resident);
    }
    cut_within_a_page();
    cut_pages_dont_count();
    child_has_a_copy();
    printf("clients/c: mapped: as it should be\n");
    return 0;
}
