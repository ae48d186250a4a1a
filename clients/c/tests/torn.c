/* Sessions that commit nothing before a rollback (FAMSYNC_TORN): an msync was refused memory after a part of the stores
   was taken, and then the memory with the rest was closed. No part of it may be committed. The next session finds the
   last commit. If the memory stays open, the next msync has all stores.

   A limit of the process's addresses refuses memory. Sanitizers and valgrind can't run with it, so the test does
   nothing there. */
#include "test.h"

#include <sys/resource.h>

#define PAGES 1500u
#define LENGTH (PAGES * 4096u)

static struct famsync_options options;
static famsync *handle;
static famsync_memory *memory;

static bool is_watched(void)
{
#if defined(__SANITIZE_ADDRESS__) || defined(__SANITIZE_THREAD__)
    return true;
#else
    return getenv("WITHOUT_MAPPINGS") != NULL;
#endif
}

/* Allows this process no more addresses than it has. */
static struct rlimit limit(void)
{
    struct rlimit before, none;
    size_t pages = 0;
    FILE *file = fopen("/proc/self/statm", "r");
    WANT(file != NULL && fscanf(file, "%zu", &pages) == 1 && fclose(file) == 0);
    WANT(getrlimit(RLIMIT_AS, &before) == 0);
    none = before;
    none.rlim_cur = pages * (size_t)sysconf(_SC_PAGESIZE);
    WANT(setrlimit(RLIMIT_AS, &none) == 0);
    return before;
}

/* Takes all memory that malloc has, in blocks with room for a page, but for some of them. */
static void **take_all_but(unsigned left)
{
    void **taken = NULL, **block;
    while ((block = malloc(4200)) != NULL) {
        *block = taken;
        taken = block;
    }
    for (; left > 0 && taken; left--) {
        block = taken;
        taken = *block;
        free(block);
    }
    return taken;
}

static void give_all_back(void **taken)
{
    for (void **next; taken; taken = next) {
        next = *taken;
        free(taken);
    }
}

/* Stores to all pages, of which the core gets memory for a part. */
static void store_and_be_refused(unsigned char number)
{
    memset(famsync_memory_at(memory), number, LENGTH);
    struct rlimit before = limit();
    void **taken = take_all_but(300);
    int code = famsync_msync(handle, NULL);
    give_all_back(taken);
    WANT(setrlimit(RLIMIT_AS, &before) == 0);
    WANT_CODE(code, FAMSYNC_NOMEMORY);
}

static void begin(unsigned char number)
{
    handle = opened_with(options);
    WANT_CODE(famsync_memory_open(handle, "a", &memory), FAMSYNC_OK);
    const unsigned char *at = famsync_memory_at(memory);
    WANT(at[0] == number && memcmp(at, at + 1, LENGTH - 1) == 0);
}

static void end(void)
{
    WANT_CODE(famsync_memory_close(memory), FAMSYNC_OK);
    WANT_CODE(famsync_close(handle), FAMSYNC_OK);
}

/* The memory stays open: the next msync has all stores, or a rollback undoes them all. */
static void kept_open(void)
{
    begin(0);
    memset(famsync_memory_at(memory), 1, LENGTH);
    WANT_CODE(famsync_msync(handle, NULL), FAMSYNC_OK);
    end();
    begin(1);
    store_and_be_refused(2);
    WANT_CODE(famsync_msync(handle, NULL), FAMSYNC_OK);
    end();
    begin(2);
    store_and_be_refused(3);
    WANT_CODE(famsync_rollback(handle), FAMSYNC_OK);
    const unsigned char *at = famsync_memory_at(memory);
    WANT(at[0] == 2 && memcmp(at, at + 1, LENGTH - 1) == 0);
    WANT_CODE(famsync_msync(handle, NULL), FAMSYNC_OK);
    end();
    begin(2);
    end();
}

/* The memory is closed: no call commits before a rollback, whatever is stored, and the session still reads. */
static void closed(void)
{
    unsigned char byte = 9;
    begin(2);
    store_and_be_refused(3);
    uint64_t before = famsync_acknowledged(handle);
    WANT_CODE(famsync_memory_close(memory), FAMSYNC_OK);
    WANT_CODE(famsync_msync(handle, NULL), FAMSYNC_TORN);
    WANT_CODE(famsync_write(handle, 1, 0, &byte, 1, NULL), FAMSYNC_OK);
    WANT_CODE(famsync_msync(handle, NULL), FAMSYNC_TORN);
    WANT_CODE(famsync_memory_open(handle, "b", &memory), FAMSYNC_OK);
    *(unsigned char *)famsync_memory_at(memory) = 8;
    WANT_CODE(famsync_msync(handle, NULL), FAMSYNC_TORN);
    WANT(famsync_acknowledged(handle) == before);
    end();
    begin(2);
    WANT_CODE(famsync_read(handle, 1, 0, &byte, 1, NULL), FAMSYNC_OK);
    WANT(byte == 0);
    end();
}

/* After a rollback the session commits again, and nothing of the refused msync is there. */
static void rolled_back(void)
{
    unsigned char byte = 9;
    begin(2);
    store_and_be_refused(3);
    WANT_CODE(famsync_memory_close(memory), FAMSYNC_OK);
    WANT_CODE(famsync_msync(handle, NULL), FAMSYNC_TORN);
    WANT_CODE(famsync_rollback(handle), FAMSYNC_OK);
    WANT_CODE(famsync_write(handle, 1, 0, &byte, 1, NULL), FAMSYNC_OK);
    WANT_CODE(famsync_msync(handle, NULL), FAMSYNC_OK);
    WANT_CODE(famsync_close(handle), FAMSYNC_OK);
    begin(2);
    WANT_CODE(famsync_read(handle, 1, 0, &byte, 1, NULL), FAMSYNC_OK);
    WANT(byte == 9);
    memset(famsync_memory_at(memory), 4, LENGTH);
    WANT_CODE(famsync_msync(handle, NULL), FAMSYNC_OK);
    end();
    begin(4);
    end();
}

static void in_layout(unsigned layout, int resident)
{
    char files[80];
    snprintf(files, sizeof files, "a=%u b=4096", LENGTH);
    make_volume_of(layout, PAGES + 1, files);
    options = (struct famsync_options){.size = sizeof options, .foreground = 1, .resident = resident};
    kept_open();
    closed();
    rolled_back();
}

int main(void)
{
    if (is_watched()) {
        printf("clients/c: torn: not tried, as memory can't be refused here\n");
        return 0;
    }
    in_layout(FIRST_LAYOUT, 0);
    in_layout(FIRST_LAYOUT, 1);
    printf("clients/c: torn: as it should be\n");
    return 0;
}
