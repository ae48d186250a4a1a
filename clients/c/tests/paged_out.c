/* The system takes pages of the volume's file out of memory as it needs room, and brings them back as they are loaded:
   neither is a store. In each way of tracking what was stored to is known, and nothing else, whatever was loaded,
   taken out or brought back before and after. */
#include "test.h"

#include <sys/mman.h>

#ifndef MADV_PAGEOUT
#define MADV_PAGEOUT 21
#endif

#define PAGES 2048u
#define LENGTH (PAGES * 4096u)

static famsync *handle;
static famsync_memory *memory;
static unsigned char *at;

static void load(unsigned first, unsigned end)
{
    volatile unsigned sum = 0;
    for (unsigned page = first; page < end; page++)
        sum += at[page * 4096u];
}

/* A system that doesn't know of it takes nothing out. */
static void take_out(unsigned first, unsigned end)
{
    (void)madvise(at + first * 4096u, (size_t)(end - first) * 4096, MADV_PAGEOUT);
}

static void want_dirty(size_t pages)
{
    WANT(famsync_memory_dirty(memory) == pages);
}

static void store(unsigned page, unsigned char number)
{
    at[page * 4096u + 7] = number;
}

static void round_of(unsigned char number)
{
    load(0, PAGES);
    want_dirty(0);
    take_out(0, PAGES / 2);
    want_dirty(0);
    store(5, number);
    store(PAGES - 1, number);
    store(PAGES / 2 + 9, number);
    want_dirty(3);
    take_out(0, PAGES);
    want_dirty(3);
    load(0, PAGES / 4);
    want_dirty(3);
    WANT_CODE(famsync_msync(handle, NULL), FAMSYNC_OK);
    want_dirty(0);
    take_out(PAGES / 4, PAGES);
    load(PAGES / 8, PAGES);
    want_dirty(0);
    store(6, number);
    WANT_CODE(famsync_rollback(handle), FAMSYNC_OK);
    want_dirty(0);
    take_out(0, PAGES);
    load(0, PAGES);
    want_dirty(0);
    WANT(at[5 * 4096 + 7] == number && at[6 * 4096 + 7] == 0 && at[LENGTH - 4096 + 7] == number);
}

static void session(int tracking, unsigned layout)
{
    struct famsync_options options = {.size = sizeof options, .tracking = tracking, .budget = 1};
    char file[40];
    snprintf(file, sizeof file, "a=%u", LENGTH);
    make_hole_of(layout, 64, file);
    int code = famsync_open(volume, &options, &handle);
    if (code == FAMSYNC_TRACKING)
        return;
    WANT_CODE(code, FAMSYNC_OK);
    WANT_CODE(famsync_memory_open(handle, "a", &memory), FAMSYNC_OK);
    at = famsync_memory_at(memory);
    for (unsigned char number = 1; number < 6; number++)
        round_of(number);
    WANT_CODE(famsync_memory_close(memory), FAMSYNC_OK);
    WANT_CODE(famsync_close(handle), FAMSYNC_OK);
}

int main(void)
{
    for (unsigned layout = FIRST_LAYOUT; layout <= LAYOUTS; layout++) {
        session(FAMSYNC_TRACK_SIGNALS, layout);
        session(FAMSYNC_TRACK_KERNEL, layout);
    }
    printf("clients/c: paged_out: as it should be\n");
    return 0;
}
