/* Plain memory: a file's pages as memory of this process. mapping.c has its address space, stores.c what a commit takes
   of it, and faults.c the handler of SIGSEGV that notes the first store to each page. */
#include "memory.h"

#include <stdlib.h>
#include <string.h>
#include <unistd.h>

static void drop_memory(famsync_memory *memory)
{
    unmap_memory(memory);
    free(memory);
}

/* What a file's memory is, before it has any. */
static famsync_memory *new_memory(famsync *handle, unsigned file)
{
    size_t system_page = (size_t)sysconf(_SC_PAGESIZE);
    famsync_memory *memory = calloc(1, sizeof *memory);
    if (!memory)
        return NULL;
    memory->handle = handle;
    memory->file = file;
    memory->length = (size_t)handle->file[file].length;
    memory->grain = system_page > PAGE ? system_page : PAGE;
    memory->pages = (memory->length + memory->grain - 1) / memory->grain;
    memory->most = (size_t)(handle->file[file].pages * PAGE + memory->grain - 1) / memory->grain;
    memory->room = memory->most * memory->grain;
    return memory;
}

famsync_memory *memory_of_file(const famsync *handle, unsigned file)
{
    for (famsync_memory *memory = handle->memories; memory; memory = memory->next_one)
        if (memory->file == file)
            return memory;
    return NULL;
}

int memory_is_open(const char *file)
{
    return explain(FAMSYNC_OVERLAP, "plain memory of \"%s\" is already open", file);
}

/* Memory for a file that has none. */
static int open_new(famsync *handle, unsigned file, void *address, famsync_memory **opened)
{
    famsync_memory *memory = handle->file[file].pages > SIZE_MAX / 4 / PAGE ? NULL : new_memory(handle, file);
    int code;
    if (!memory)
        return FAMSYNC_NOMEMORY;
    code = map_memory(memory, address);
    if (code == FAMSYNC_OK && !handle->volume.readonly && !handle->is_tracked)
        code = enter_table(memory);
    if (code != FAMSYNC_OK) {
        drop_memory(memory);
        return code;
    }
    memory->next_one = handle->memories;
    handle->memories = memory;
    *opened = memory;
    return FAMSYNC_OK;
}

static int open_memory(famsync *handle, const char *file, void *address, famsync_memory **opened)
{
    unsigned number = number_of(handle, file);
    if (number == handle->files)
        return no_such_name(file);
    if (handle->file[number].length == 0)
        return explain(FAMSYNC_ARGUMENT, "the file \"%s\" is empty", file);
    if (memory_of_file(handle, number))
        return memory_is_open(file);
    return open_new(handle, number, address, opened);
}

static int open_anywhere_or_at(famsync *handle, const char *file, void *address, famsync_memory **opened)
{
    int code;
    if (opened)
        *opened = NULL;
    code = enter_unless(handle, !file ? "`file` is a null pointer" : !opened ? "`memory` is a null pointer" : NULL);
    return code == FAMSYNC_OK ? leave(handle, open_memory(handle, file, address, opened)) : code;
}

int famsync_memory_open(famsync *handle, const char *file, famsync_memory **opened)
{
    return answer(handle, __func__, open_anywhere_or_at(handle, file, NULL, opened));
}

int famsync_memory_open_at(famsync *handle, const char *file, void *address, famsync_memory **opened)
{
    return answer(handle, __func__, open_anywhere_or_at(handle, file, address, opened));
}

void *famsync_memory_at(const famsync_memory *memory)
{
    return memory ? memory->at : NULL;
}

size_t famsync_memory_length(const famsync_memory *memory)
{
    return memory ? memory->length : 0;
}

size_t famsync_memory_dirty(const famsync_memory *memory)
{
    sigset_t blocked;
    size_t count;
    if (!memory || !memory->dirty || is_forked(memory->handle))
        return 0;
    lock_pages(memory->handle, &blocked);
    note_tracked((famsync_memory *)(uintptr_t)memory);
    count = dirty_in(memory);
    unlock_pages(memory->handle, &blocked);
    return count;
}

/* Opens the pages of a range. The caller holds `closing`, so the file keeps its length meanwhile. */
static int touch_range(famsync_memory *memory, size_t offset, size_t count)
{
    size_t first = offset / memory->grain, end, pages;
    if (offset > memory->length || count > memory->length - offset)
        return explain(FAMSYNC_ARGUMENT, "offset %zu with %zu bytes ends past the %zu bytes of \"%s\"", offset, count,
                       memory->length, memory->handle->file[memory->file].name);
    if (memory->handle->volume.readonly)
        return FAMSYNC_READONLY;
    if (count == 0)
        return FAMSYNC_OK;
    end = (offset + count - 1) / memory->grain + 1;
    pages = (end - 1 - first) * (memory->grain / PAGE) + pages_in(memory, end - 1);
    if (pages > memory->handle->frames)
        return explain_no_frame(memory->handle, "the range has", pages);
    return memory->handle->is_tracked || open_pages(memory, first, end) ? FAMSYNC_OK : FAMSYNC_SYSTEM;
}

static int touch(famsync_memory *memory, size_t offset, size_t count)
{
    sigset_t blocked;
    int code;
    lock_pages(memory->handle, &blocked);
    code = touch_range(memory, offset, count);
    unlock_pages(memory->handle, &blocked);
    return code;
}

int famsync_memory_touch(famsync_memory *memory, size_t offset, size_t count)
{
    if (!memory)
        return answer(NULL, __func__, explain(FAMSYNC_ARGUMENT, "`memory` is a null pointer"));
    return answer(memory->handle, __func__, is_forked(memory->handle) ? FAMSYNC_FORKED : touch(memory, offset, count));
}

void read_memory(const famsync_memory *memory, uint64_t offset, unsigned char *bytes, size_t count)
{
    memmove(bytes, memory->at + offset, count);
}

/* The pages stay open meanwhile, as they are closed by a commit alone, and the caller has its turn. The lock of the
   handler isn't held while bytes are copied, since these may be in plain memory, too, or anywhere else. */
int write_memory(famsync_memory *memory, uint64_t offset, const unsigned char *bytes, size_t count)
{
    int code = touch(memory, (size_t)offset, count);
    if (code == FAMSYNC_OK)
        memmove(memory->at + offset, bytes, count);
    return code;
}

static void unlink_memory(famsync *handle, famsync_memory *memory)
{
    for (famsync_memory **link = &handle->memories; *link; link = &(*link)->next_one)
        if (*link == memory) {
            *link = memory->next_one;
            return;
        }
}

static void close_memory(famsync *handle, famsync_memory *memory)
{
    unlink_memory(handle, memory);
    /* What was stored of it can't be taken back, and must not be committed by itself. */
    handle->torn |= memory->stored;
    leave_table(memory);
    drop_memory(memory);
}

int famsync_memory_close(famsync_memory *memory)
{
    famsync *handle;
    int cancel;
    if (!memory)
        return FAMSYNC_OK;
    handle = memory->handle;
    if (is_forked(handle)) {
        close_memory(handle, memory);
        return FAMSYNC_OK;
    }
    cancel = hold_off_cancel();
    pthread_mutex_lock(&handle->turn);
    close_memory(handle, memory);
    pthread_mutex_unlock(&handle->turn);
    allow_cancel(cancel);
    return FAMSYNC_OK;
}
