/* What a session says of itself: pages that wait, calls that were made, and memory. */
#include "test.h"

static struct famsync_stat of(famsync *handle)
{
    struct famsync_stat stat = {.size = sizeof stat};
    WANT_CODE(famsync_stat(handle, &stat), FAMSYNC_OK);
    WANT(stat.size == sizeof stat && stat.frames == famsync_frames(handle));
    WANT(stat.commits == famsync_acknowledged(handle));
    return stat;
}

/* Commits in the foreground, in layout 5: one of two pages, with its list two writes and two syncs, and one of nothing.
 */
static void counts(void)
{
    unsigned char byte;
    make_volume(16, "a=65536 b=5000");
    famsync *handle = opened_with((struct famsync_options){.foreground = 1, .frames = 9});
    struct famsync_stat first = of(handle), stat;
    WANT(first.frames == 9 && first.staged == 0 && first.unwritten == 0 && first.memory > 0);
    /* the opening begins with a sync, and makes a new start */
    WANT(first.commits == 0 && first.reads > 0 && first.syncs == 3 && first.writes == 2 && first.bytes_written == 4097);
    WANT_CODE(famsync_read(handle, 0, 40000, &byte, 1, NULL), FAMSYNC_OK);
    stat = of(handle);
    WANT(stat.reads == first.reads + 1 && stat.staged == 0);
    WANT_CODE(famsync_write(handle, 0, 4095, "xy", 2, NULL), FAMSYNC_OK);
    stat = of(handle);
    WANT(stat.staged == 2 && stat.writes == first.writes && stat.unwritten == 0 && stat.memory >= first.memory + 8192);
    WANT_CODE(famsync_msync(handle, NULL), FAMSYNC_OK);
    stat = of(handle);
    WANT(stat.commits == 1 && stat.staged == 0 && stat.unwritten == 3 && stat.syncs == first.syncs + 2);
    WANT(stat.writes == first.writes + 2 && stat.bytes_written == first.bytes_written + 3 * 4096 + 1);
    WANT_CODE(famsync_msync(handle, NULL), FAMSYNC_OK); /* which has nothing */
    stat = of(handle);
    WANT(stat.commits == 2 && stat.unwritten == 3 && stat.writes == first.writes + 2);
    WANT_CODE(famsync_close(handle), FAMSYNC_OK);
}

/* Pages of plain memory wait, too; those that the core has already count once. */
static void waiting(void)
{
    famsync_memory *memory;
    make_volume(16, "a=65536");
    famsync *handle = opened_with((struct famsync_options){.foreground = 1});
    WANT_CODE(famsync_write(handle, 0, 0, "x", 1, NULL), FAMSYNC_OK);
    WANT_CODE(famsync_memory_open(handle, "a", &memory), FAMSYNC_OK);
    WANT(of(handle).staged == 1);
    ((unsigned char *)famsync_memory_at(memory))[1] = 1;
    ((unsigned char *)famsync_memory_at(memory))[4096] = 1;
    WANT(of(handle).staged == 2 && famsync_memory_dirty(memory) == 2);
    WANT_CODE(famsync_msync(handle, NULL), FAMSYNC_OK);
    WANT(of(handle).staged == 0 && of(handle).unwritten == 3);
    WANT_CODE(famsync_memory_close(memory), FAMSYNC_OK);
    WANT_CODE(famsync_close(handle), FAMSYNC_OK);
}

/* A program with a longer structure or a shorter one. */
static void sizes(void)
{
    struct {
        struct famsync_stat stat;
        uint64_t more[3];
    } longer = {.more = {1, 2, 3}};
    struct famsync_stat stat = {.size = sizeof stat - 1, .frames = 99};
    make_volume(16, "a=65536");
    famsync *handle = opened();
    WANT_CODE(famsync_stat(handle, &stat), FAMSYNC_ARGUMENT);
    WANT(stat.frames == 99);
    stat.size = 0;
    WANT_CODE(famsync_stat(handle, &stat), FAMSYNC_ARGUMENT);
    WANT_CODE(famsync_stat(handle, NULL), FAMSYNC_ARGUMENT);
    WANT_CODE(famsync_stat(NULL, &stat), FAMSYNC_ARGUMENT);
    longer.stat.size = sizeof longer.stat + 2 * sizeof(uint64_t);
    WANT_CODE(famsync_stat(handle, &longer.stat), FAMSYNC_OK);
    WANT(longer.stat.frames == 16 && longer.more[0] == 0 && longer.more[1] == 0 && longer.more[2] == 3);
    WANT(longer.stat.size == sizeof longer.stat + 2 * sizeof(uint64_t));
    WANT_CODE(famsync_close(handle), FAMSYNC_OK);
}

static void reading_alone(void)
{
    unsigned char byte;
    famsync *handle = opened_with((struct famsync_options){.readonly = 1});
    WANT_CODE(famsync_read(handle, 0, 0, &byte, 1, NULL), FAMSYNC_OK);
    WANT(of(handle).writes == 0 && of(handle).syncs == 0 && of(handle).frames == 16);
    WANT_CODE(famsync_close(handle), FAMSYNC_OK);
}

int main(void)
{
    counts();
    waiting();
    sizes();
    reading_alone();
    printf("clients/c: stat: as it should be\n");
    return 0;
}
