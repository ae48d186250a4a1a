/* What a session says of its volume: its layout, its parts, and how large its files can become. */
#include "test.h"

#define SLOTS 9u

static struct famsync_volume_info of(famsync *handle)
{
    struct famsync_volume_info info = {.size = sizeof info};
    WANT_CODE(famsync_volume_info(handle, &info), FAMSYNC_OK);
    WANT(info.size == sizeof info && info.files == famsync_files(handle));
    return info;
}

/* How many blocks the file of the volume has. */
static uint64_t blocks_of_file(void)
{
    struct stat found;
    WANT(stat(volume, &found) == 0);
    return (uint64_t)found.st_size / 4096;
}

/* The greatest commit of a volume that make_volume_of has made. */
static uint64_t greatest_commit(void)
{
    uint64_t records = SLOTS;
    while (commit_blocks((unsigned)records + 1) < log_blocks(SLOTS))
        records++;
    return records - 1;
}

static void parts(unsigned layout)
{
    make_volume_of(layout, SLOTS, "a=65536 b=1/5000");
    famsync *handle = opened_with((struct famsync_options){.foreground = 1, .frames = 3});
    struct famsync_volume_info info = of(handle);
    WANT(info.layout == layout && info.blocks == blocks_of_file() && info.files == 2 && info.readonly == 0);
    WANT(info.log == log_blocks(SLOTS));
    WANT(info.log_used == 0 && info.frames == greatest_commit() && famsync_frames(handle) == 3);
    WANT_CODE(famsync_write(handle, 0, 0, "x", 1, NULL), FAMSYNC_OK);
    WANT_CODE(famsync_msync(handle, NULL), FAMSYNC_OK);
    WANT(of(handle).log_used == commit_blocks(1));
    WANT_CODE(famsync_close(handle), FAMSYNC_OK);
    handle = opened_with((struct famsync_options){.readonly = 1});
    info = of(handle);
    WANT(info.readonly == 1 && info.log_used == 0 && info.frames == famsync_frames(handle));
    WANT_CODE(famsync_close(handle), FAMSYNC_OK);
}

/* A length up to the capacity, and no greater one, can be set. */
static void capacities(unsigned layout)
{
    make_volume_of(layout, SLOTS, "a=65536 b=1/5000 c=0/1099511");
    famsync *handle = opened();
    WANT(famsync_capacity(handle, 0) == 65536 && famsync_capacity(handle, 1) == 5000);
    WANT(famsync_capacity(handle, 2) == 1099511 && famsync_capacity(handle, 3) == 0);
    WANT(famsync_capacity(NULL, 0) == 0);
    WANT_CODE(famsync_setlength(handle, "b", 5001), FAMSYNC_EINVAL);
    WANT(strcmp(famsync_error(handle), "famsync_setlength: the length 5001 exceeds the capacity of \"b\", 5000") == 0);
    WANT_CODE(famsync_setlength(handle, "b", 5000), FAMSYNC_OK);
    WANT(famsync_file_length(handle, 1) == 5000 && famsync_capacity(handle, 1) == 5000);
    WANT_CODE(famsync_rollback(handle), FAMSYNC_OK);
    WANT(famsync_capacity(handle, 1) == 5000 && of(handle).layout == layout);
    WANT_CODE(famsync_close(handle), FAMSYNC_OK);
}

/* A program with a longer structure or a shorter one. */
static void sizes(void)
{
    struct {
        struct famsync_volume_info info;
        uint64_t more[3];
    } longer = {.more = {1, 2, 3}};
    struct famsync_volume_info info = {.size = sizeof info - 1, .layout = 99};
    make_volume(SLOTS, "a=65536");
    famsync *handle = opened();
    WANT_CODE(famsync_volume_info(handle, &info), FAMSYNC_ARGUMENT);
    WANT(info.layout == 99 && strcmp(famsync_error(handle), "famsync_volume_info: `size` is too small") == 0);
    WANT_CODE(famsync_volume_info(handle, NULL), FAMSYNC_ARGUMENT);
    WANT_CODE(famsync_volume_info(NULL, &info), FAMSYNC_ARGUMENT);
    longer.info.size = sizeof longer.info + 2 * sizeof(uint64_t);
    WANT_CODE(famsync_volume_info(handle, &longer.info), FAMSYNC_OK);
    WANT(longer.info.layout == FIRST_LAYOUT && longer.more[0] == 0 && longer.more[1] == 0 && longer.more[2] == 3);
    WANT_CODE(famsync_close(handle), FAMSYNC_OK);
}

int main(void)
{
    for (unsigned layout = FIRST_LAYOUT; layout <= LAYOUTS; layout++) {
        parts(layout);
        capacities(layout);
    }
    sizes();
    printf("clients/c: info: as it should be\n");
    return 0;
}
