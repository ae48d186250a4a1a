/* Plain memory beside huge pages: whatever the program and the system ask for, a store counts as one page of 4,096
   bytes, and commits, rollbacks and pages that are given back are as without them. */
#include "test.h"

#include <sys/mman.h>
#include <sys/prctl.h>

#define PAGE 4096u
#define HUGE (2u << 20)
#define LENGTH (8u * HUGE)
#define APART 64u /* pages that are stored to are so many pages apart */

static struct famsync_options options;

static famsync_memory *memory_of(famsync *handle)
{
    famsync_memory *memory;
    WANT_CODE(famsync_memory_open(handle, "a", &memory), FAMSYNC_OK);
    return memory;
}

static void close_both(famsync *handle, famsync_memory *memory)
{
    WANT_CODE(famsync_memory_close(memory), FAMSYNC_OK);
    WANT_CODE(famsync_close(handle), FAMSYNC_OK);
}

/* Of linux/mman.h, which may be older than the system. */
#define COLLAPSE 25

/* What the system is asked for: huge pages in the memory as it comes to it, or at once; none in it, or in the process.
 */
enum { WANTED, COLLAPSED, UNWANTED, DISABLED };

static const char *const names[] = {"MADV_HUGEPAGE", "MADV_COLLAPSE", "MADV_NOHUGEPAGE", "PR_SET_THP_DISABLE"};
static const int advice[] = {MADV_HUGEPAGE, COLLAPSE, MADV_NOHUGEPAGE};

/* A system may not do it, or know of none of this. */
static void ask(int how, unsigned char *at)
{
    (void)(how == DISABLED ? prctl(PR_SET_THP_DISABLE, 1, 0, 0, 0) : madvise(at, LENGTH, advice[how]));
}

/* How much of this process is in huge pages, in kilobytes. */
static unsigned long huge_memory(void)
{
    FILE *file = fopen("/proc/self/smaps_rollup", "re");
    unsigned long found, all = 0;
    char line[256];
    while (file && fgets(line, sizeof line, file))
        if (sscanf(line, "AnonHugePages: %lu", &found) == 1)
            all += found;
    if (file)
        WANT(fclose(file) == 0);
    return all;
}

static size_t store_apart(unsigned char *at, size_t first, unsigned char value)
{
    size_t count = 0;
    for (size_t page = first; page < LENGTH / PAGE; page += APART, count++)
        at[page * PAGE + value] = value;
    return count;
}

static void judge(const unsigned char *at, size_t first, unsigned char most)
{
    for (size_t page = 0; page < LENGTH / PAGE; page++)
        for (unsigned char value = 1; value <= most + 1; value++)
            WANT(at[page * PAGE + value] == (page % APART == first && value <= most ? value : 0));
}

static void in_session(int how)
{
    enum { ROUNDS = 3, FIRST = 5 };
    unsigned long most = 0;
    famsync *handle = opened_with(options);
    famsync_memory *memory = memory_of(handle);
    unsigned char *at = famsync_memory_at(memory);
    for (unsigned char round = 1; round <= ROUNDS; round++) {
        ask(how, at);
        most = huge_memory() > most ? huge_memory() : most;
        size_t count = store_apart(at, FIRST, round);
        WANT(famsync_memory_dirty(memory) == count);
        WANT_CODE(famsync_msync(handle, NULL), FAMSYNC_OK);
        WANT(famsync_memory_dirty(memory) == 0);
        store_apart(at, FIRST + 1, round);
        store_apart(at, FIRST, ROUNDS + 1);
        WANT_CODE(famsync_rollback(handle), FAMSYNC_OK);
        WANT(famsync_memory_dirty(memory) == 0);
        judge(at, FIRST, round);
    }
    if (most > 0)
        printf("clients/c: hugepages: %s%s: %lu kB were huge\n", names[how], options.resident ? ", resident" : "",
               most);
    fflush(stdout);
    close_both(handle, memory);
    handle = opened();
    memory = memory_of(handle);
    judge(famsync_memory_at(memory), FIRST, ROUNDS);
    close_both(handle, memory);
}

/* Each in a process of its own. */
static void asked(int how)
{
    int status;
    make_volume(LENGTH / PAGE / APART, "a=16777216");
    pid_t child = fork();
    if (child == 0) {
        alarm(120);
        in_session(how);
        _exit(0);
    }
    WANT(waitpid(child, &status, 0) == child && status == 0);
}

/* Whether the system can track stores. */
static bool tracks(void)
{
    famsync *handle;
    make_volume(4, "a=4096");
    int code = famsync_open(volume, &(struct famsync_options){.size = sizeof options, .tracking = 1}, &handle);
    return code == FAMSYNC_OK && famsync_close(handle) == FAMSYNC_OK;
}

int main(void)
{
    for (int way = 0; way < 4; way++) {
        options = (struct famsync_options){.size = sizeof options,
                                           .foreground = 1,
                                           .resident = way == 1,
                                           .budget = way == 2 ? 1 : 0,
                                           .tracking = way == 3 ? FAMSYNC_TRACK_KERNEL : FAMSYNC_TRACK_SIGNALS};
        if (way == 3 && !tracks())
            continue;
        for (int how = WANTED; how <= DISABLED; how++)
            asked(how);
    }
    printf("clients/c: hugepages: as it should be\n");
    return 0;
}
