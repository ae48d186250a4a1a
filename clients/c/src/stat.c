/* What a session says of itself, and of its volume. */
#include "inside.h"

#include <string.h>

/* How large the structures were when they were new. */
#define FIRST_SIZE (offsetof(struct famsync_stat, memory) + sizeof(uint64_t))
#define FIRST_INFO_SIZE (offsetof(struct famsync_volume_info, readonly) + sizeof(uint64_t))

static void fill(famsync *handle, struct famsync_stat *stat)
{
    stat->commits = atomic_load(&handle->acknowledged);
    stat->frames = handle->frames;
    stat->staged = (uint64_t)famsync_core_staged(handle->core, &handle->core.at) + stored_pages(handle);
    stat->unwritten = (uint64_t)famsync_core_unwritten(handle->core, &handle->core.at);
    stat->reads = handle->counts.reads;
    stat->writes = handle->counts.writes;
    stat->syncs = handle->counts.syncs;
    stat->bytes_written = handle->counts.bytes_written;
    stat->memory = memory_in_use();
}

/* Copies a structure to that of a program, which may have more fields than this version, which are zeros then, or
   fewer. */
static void copy_out(void *given, size_t given_size, const void *found, size_t size)
{
    memset(given, 0, given_size);
    memcpy(given, found, given_size < size ? given_size : size);
}

int famsync_stat(famsync *handle, struct famsync_stat *stat)
{
    struct famsync_stat found = {0};
    int code = enter_unless(handle, !stat                     ? "`stat` is a null pointer"
                                    : stat->size < FIRST_SIZE ? "`size` is too small"
                                                              : NULL);
    if (code != FAMSYNC_OK)
        return answer(handle, __func__, code);
    fill(handle, &found);
    found.size = stat->size;
    copy_out(stat, found.size, &found, sizeof found);
    return leave(handle, FAMSYNC_OK);
}

int famsync_volume_info(famsync *handle, struct famsync_volume_info *info)
{
    struct famsync_volume_info found = {0};
    uint64_t blocks, commits;
    int code = enter_unless(handle, !info                          ? "`info` is a null pointer"
                                    : info->size < FIRST_INFO_SIZE ? "`size` is too small"
                                                                   : NULL);
    if (code != FAMSYNC_OK)
        return answer(handle, __func__, code);
    found.size = info->size;
    found.layout = handle->layout;
    found.blocks = handle->blocks;
    found.files = handle->files;
    found.log = handle->log.blocks;
    (void)famsync_core_log(handle->core, &blocks, &found.log_used, &commits, &handle->core.at);
    found.frames = most_pages(handle);
    found.readonly = handle->volume.readonly;
    copy_out(info, found.size, &found, sizeof found);
    return leave(handle, FAMSYNC_OK);
}
