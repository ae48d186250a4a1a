/* Committed pages are given back to the system beyond the budget, whoever notes the stores: what the process has of a
   memory of its own stays below it, and no byte differs from a model. */
#include "test.h"

#define PAGES 8192u
#define LENGTH (PAGES * 4096u)
#define BUDGET (256u * 4096u)
#define STORED 40u /* pages of a commit */

static unsigned char *model;
static unsigned commits = 150;

/* How many bytes of a memory are the process's own, and no pages of the volume's file. */
static size_t own_bytes(const unsigned char *at)
{
    FILE *maps = fopen("/proc/self/smaps", "r");
    unsigned long first, last, begin = 0, end = 0, kilobytes;
    size_t total = 0;
    char line[400];
    WANT(maps != NULL);
    while (fgets(line, sizeof line, maps)) {
        if (sscanf(line, "%lx-%lx ", &first, &last) == 2) {
            begin = first;
            end = last;
        }
        if (sscanf(line, "Anonymous: %lu kB", &kilobytes) == 1 && begin >= (uintptr_t)at - 4096 &&
            end <= (uintptr_t)at + LENGTH + 4096)
            total += kilobytes * 1024;
    }
    fclose(maps);
    return total;
}

static unsigned below(unsigned most)
{
    return (unsigned)rand() % most;
}

/* One byte here, a page there: in all pages, and often in some. */
static void store(unsigned char *at)
{
    for (unsigned i = 0; i < STORED; i++) {
        size_t page = below(4) ? below(PAGES) : below(100), from = page * 4096 + below(4096);
        size_t count = below(3) ? 1 : 4096 - from % 4096;
        memset(at + from, (int)below(256), count);
        memcpy(model + from, at + from, count);
    }
}

static void stays_below(unsigned layout, int tracking, int foreground)
{
    size_t most = 0, stored = 0;
    struct famsync_options options = {
        .size = sizeof options, .budget = BUDGET, .tracking = tracking, .foreground = foreground};
    famsync_memory *memory;
    char files[40];
    snprintf(files, sizeof files, "a=%u", LENGTH);
    make_volume_of(layout, 64, files);
    memset(model, 0, LENGTH);
    famsync *handle = opened_with(options);
    WANT_CODE(famsync_memory_open(handle, "a", &memory), FAMSYNC_OK);
    unsigned char *at = famsync_memory_at(memory);
    for (unsigned commit = 0; commit < commits; commit++) {
        store(at);
        size_t own = commit % 4 == 0 ? own_bytes(at) : 0;
        most = own > most ? own : most;
        stored += famsync_memory_dirty(memory);
        WANT_CODE(famsync_msync(handle, NULL), FAMSYNC_OK);
        WANT(famsync_memory_dirty(memory) == 0);
        if (commit % 10 == 3) { /* also what is undone */
            memset(at + (size_t)below(PAGES) * 4096, 1, 4096);
            WANT_CODE(famsync_rollback(handle), FAMSYNC_OK);
        }
        if (commit % 16 == 5)
            WANT(memcmp(at, model, LENGTH) == 0);
    }
    WANT(memcmp(at, model, LENGTH) == 0);
    /* commits that aren't home yet, the stores of one, and half of the budget, as the other half are copies */
    WANT(most > STORED * 4096 / 2 && most <= BUDGET / 2 + 6 * STORED * 4096);
    WANT_CODE(famsync_memory_close(memory), FAMSYNC_OK);
    WANT_CODE(famsync_close(handle), FAMSYNC_OK);
    handle = opened();
    WANT_CODE(famsync_read(handle, 0, 0, model + LENGTH, LENGTH, NULL), FAMSYNC_OK);
    WANT(memcmp(model, model + LENGTH, LENGTH) == 0);
    WANT_CODE(famsync_close(handle), FAMSYNC_OK);
    printf("clients/c: budget: layout %u, tracking %d: %zu of %zu pages were the process's at most\n", layout, tracking,
           most / 4096, stored);
}

/* Whether the system can. */
static bool is_tracked(void)
{
    famsync *handle;
    make_volume(16, "a=65536");
    int code = famsync_open(
        volume, &(struct famsync_options){.size = sizeof(struct famsync_options), .tracking = FAMSYNC_TRACK_KERNEL},
        &handle);
    WANT(code == FAMSYNC_OK || code == FAMSYNC_TRACKING);
    return code == FAMSYNC_OK && famsync_close(handle) == FAMSYNC_OK;
}

int main(void)
{
    if (getenv("WITHOUT_MAPPINGS")) /* in a tool that is slow with signals */
        commits = 15;
    model = malloc(2 * (size_t)LENGTH);
    WANT(model != NULL);
    for (int tracking = FAMSYNC_TRACK_SIGNALS; tracking <= FAMSYNC_TRACK_KERNEL; tracking++) {
        if (tracking == FAMSYNC_TRACK_KERNEL && !is_tracked())
            break;
        for (unsigned layout = FIRST_LAYOUT; layout <= LAYOUTS; layout++)
            for (int foreground = 0; foreground < 2; foreground++)
                stays_below(layout, tracking, foreground);
    }
    free(model);
    printf("clients/c: budget: as it should be\n");
    return 0;
}
