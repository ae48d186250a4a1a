/* A system that allows a process no further mapping: no store to plain memory is lost by that, and none ends it. */
#include "test.h"

#include <sys/mman.h>

#define PAGES 400u

/* Takes all mappings that the process may have, but for some: pages of which each other one is closed are as many. */
static unsigned char *take_mappings(unsigned left, size_t *taken)
{
    size_t most = 1000000;
    unsigned char *at = mmap(NULL, most * 4096, PROT_NONE, MAP_PRIVATE | MAP_ANONYMOUS | MAP_NORESERVE, -1, 0);
    WANT(at != MAP_FAILED);
    for (*taken = 1; mprotect(at + *taken * 4096, 4096, PROT_READ) == 0; *taken += 2)
        WANT(*taken + 2 < most);
    WANT(errno == ENOMEM);
    for (unsigned page = 0; page < left; page++, *taken -= 2)
        WANT(mprotect(at + (*taken - 2) * 4096, 4096, PROT_NONE) == 0);
    return at;
}

/* Stores to each other page, and to some next to each other; those that are the same afterwards don't count. */
static void store_apart(unsigned char *at, unsigned char value)
{
    for (size_t page = 0; page < PAGES; page += 2)
        at[page * 4096 + value] = value;
    at[PAGES * 4096 - 1] = value;
}

static void judge(const unsigned char *at, unsigned char most)
{
    for (unsigned char value = 1; value <= most; value++)
        for (size_t page = 0; page < PAGES; page++)
            WANT(at[page * 4096 + value] == (page % 2 == 0 ? value : 0));
    WANT(at[PAGES * 4096 - 1] == most);
}

static famsync_memory *memory_of(famsync *handle)
{
    famsync_memory *memory;
    WANT_CODE(famsync_memory_open(handle, "a", &memory), FAMSYNC_OK);
    return memory;
}

static void stores_apart(unsigned left)
{
    size_t taken;
    unsigned char *at, *mappings;
    make_volume_of(FIRST_LAYOUT, 300, "a=1638400");
    famsync *handle = opened_with((struct famsync_options){.foreground = 1});
    famsync_memory *memory = memory_of(handle);
    at = famsync_memory_at(memory);
    mappings = take_mappings(left, &taken);
    for (unsigned char value = 1; value <= 3; value++) {
        store_apart(at, value);
        WANT(famsync_memory_dirty(memory) == PAGES / 2 + 1);
        WANT_CODE(famsync_msync(handle, NULL), FAMSYNC_OK);
        WANT(famsync_memory_dirty(memory) == 0);
    }
    WANT_CODE(famsync_memory_touch(memory, 0, 1), FAMSYNC_OK);
    WANT_CODE(famsync_memory_touch(memory, 8192, 1), FAMSYNC_OK);
    at[PAGES * 4096 - 1] = 4;
    WANT(famsync_memory_dirty(memory) == 3);
    WANT(munmap(mappings, (size_t)1000000 * 4096) == 0);
    WANT_CODE(famsync_memory_close(memory), FAMSYNC_OK);
    memory = memory_of(handle);
    judge(famsync_memory_at(memory), 3);
    WANT_CODE(famsync_memory_close(memory), FAMSYNC_OK);
    WANT_CODE(famsync_close(handle), FAMSYNC_OK);
}

int main(void)
{
    if (goes_on_without_mappings()) {
        stores_apart(40);
        stores_apart(3);
    }
    printf("clients/c: mappings: as it should be\n");
    return 0;
}
