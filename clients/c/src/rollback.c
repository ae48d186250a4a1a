/* Undoes what was changed since the last commit.

   At one moment all pages of plain memory are closed. Those that were stored to get their committed bytes again while
   they are, so that a store which comes later waits, and isn't undone. No page is written through its own address for
   that: of a mapping of the volume's file the process's own pages are given back, and behind them are the home blocks;
   in place of memory that was read in another one is put, which has the committed bytes.

   The core doesn't undo a write or a length. If one waits there, another core opens the same volume, and takes the
   place of the first. All that may fail of that comes before the moment. */
#include "memory.h"

#include <string.h>
#include <sys/mman.h>

/* Another core, which has the lengths of the last commit; a null pointer if the handle's own has no more than that. */
struct other {
    famsync_core core;
    bool took_over; /* the handle has it now, and `core` is the one before */
    size_t length[MOST_FILES];
};

/* Whether something waits for a commit in the core: a write, a length, or what a refused msync has stored there. */
static bool has_staged(famsync *handle)
{
    bool stored = handle->torn;
    for (const famsync_memory *memory = handle->memories; memory; memory = memory->next_one)
        stored |= memory->stored;
    return stored || handle->resized || famsync_core_staged(handle->core, &handle->core.at) != 0;
}

static int open_other(famsync *handle, struct other *other)
{
    int code = open_other_core(handle, &other->core);
    for (unsigned i = 0; i < handle->files && code == FAMSYNC_OK; i++) {
        uint64_t length = 0, pages;
        code = code_of(famsync_core_file(other->core, i, &length, &pages, &other->core.at));
        other->length[i] = (size_t)length;
    }
    return code;
}

static void exchange(famsync *handle, struct other *other)
{
    famsync_core core = handle->core;
    handle->core = other->core;
    other->core = core;
}

/* Reads what the last commit left of a file. */
static int read_committed(famsync_memory *memory, struct other *other, unsigned char *bytes)
{
    size_t done;
    int code;
    exchange(memory->handle, other);
    code = read_range(memory->handle, memory->file, 0, bytes, other->length[memory->file], &done);
    exchange(memory->handle, other);
    return code;
}

/* Makes what takes the place of memory that was read in, and of its copy: the copy itself is the first, unless it has
   what waits in the core. */
static int make_spares(famsync_memory *memory, struct other *other)
{
    int code = FAMSYNC_OK;
    memory->spare = anonymous(memory->room);
    if (!memory->spare)
        return FAMSYNC_NOMEMORY;
    if (!other->core.at) {
        memcpy(memory->spare, memory->copy, memory->pages * memory->grain);
        return FAMSYNC_OK;
    }
    memory->fresh = anonymous(memory->room);
    code = memory->fresh ? read_committed(memory, other, memory->fresh) : FAMSYNC_NOMEMORY;
    if (code == FAMSYNC_OK)
        memcpy(memory->spare, memory->fresh, other->length[memory->file]);
    return code;
}

/* Whether the lengths of open memory may become those of the last commit. */
static int check_lengths(const famsync *handle, const struct other *other)
{
    for (const famsync_memory *memory = handle->memories; memory; memory = memory->next_one)
        if (handle->fixed && memory->length != other->length[memory->file])
            return memory_is_open(handle->file[memory->file].name);
    return FAMSYNC_OK;
}

/* What may fail, and takes long. The home blocks have the committed bytes once commits are written out. */
static int prepare(famsync *handle, struct other *other)
{
    bool staged = has_staged(handle);
    int code = staged ? write_all_out(handle) : FAMSYNC_OK;
    if (staged && code == FAMSYNC_OK)
        code = open_other(handle, other);
    if (staged && code == FAMSYNC_OK)
        code = check_lengths(handle, other);
    for (famsync_memory *memory = handle->memories; memory && code == FAMSYNC_OK; memory = memory->next_one)
        code = memory->home ? write_all_out(handle) : make_spares(memory, other);
    return code;
}

static void drop_spares(famsync *handle)
{
    for (famsync_memory *memory = handle->memories; memory; memory = memory->next_one) {
        if (memory->spare)
            munmap(memory->spare, memory->room);
        if (memory->fresh)
            munmap(memory->fresh, memory->room);
        memory->spare = memory->fresh = NULL;
    }
}

static int undo_run(famsync_memory *memory, size_t first, size_t end)
{
    size_t at = first * memory->grain, count = (end - first) * memory->grain;
    if (madvise(memory->at + at, count, MADV_DONTNEED) != 0)
        return FAMSYNC_SYSTEM;
    keep_no_more(memory, first, end);
    note_pages(memory, first, end, CLOSED);
    return FAMSYNC_OK;
}

static int undo_mapped(famsync_memory *memory)
{
    int code = for_runs(memory, memory->dirty, memory->open, undo_run);
    memory->open = (struct span){0, 0};
    return code == FAMSYNC_OK ? clear_closed_end(memory) : code;
}

/* Pages that were stored to are those of the last commit again; if lengths or pages of the core are undone, all are. */
static int undo_memory(famsync_memory *memory, const struct other *other)
{
    if (other->core.at)
        return begin_memory_again(memory, other->length[memory->file]);
    if (memory->open.begin == memory->open.end)
        return FAMSYNC_OK;
    return memory->home ? undo_mapped(memory) : begin_memory_again(memory, memory->length);
}

/* From here on the handle has the other core, in which nothing waits for a commit. A file whose memory is open gets its
   length as that is undone. */
static void use_other(famsync *handle, struct other *other)
{
    exchange(handle, other);
    other->took_over = true;
    handle->earlier = handle->acknowledged;
    forget_staged(handle);
    for (famsync_memory *memory = handle->memories; memory; memory = memory->next_one)
        memory->stored = false;
    for (unsigned i = 0; i < handle->files; i++)
        if (!memory_of_file(handle, i))
            atomic_store(&handle->file[i].length, other->length[i]);
}

static int undo(famsync *handle, struct other *other)
{
    uint64_t pages;
    int code = close_stores(handle, &pages);
    if (code != FAMSYNC_OK)
        return code;
    if (other->core.at)
        use_other(handle, other);
    for (famsync_memory *memory = handle->memories; memory && code == FAMSYNC_OK; memory = memory->next_one)
        code = undo_memory(memory, other);
    handle->torn = code != FAMSYNC_OK; /* a part is undone, and the rest mustn't be committed */
    return code;
}

/* Makes what the other core recorded as it opened the volume. */
static int end_taking_over(famsync *handle, int code)
{
    int drained;
    note_position(handle);
    drained = drain(handle);
    note_log(handle);
    return drained != FAMSYNC_OK ? drained : code;
}

int roll_back(famsync *handle)
{
    struct other other = {.core = {NULL}};
    sigset_t blocked;
    int code;
    if (handle->volume.readonly)
        return FAMSYNC_READONLY;
    code = prepare(handle, &other);
    if (code == FAMSYNC_OK) {
        lock_pages(handle, &blocked);
        code = undo(handle, &other);
        unlock_pages(handle, &blocked);
    }
    if (other.took_over)
        code = end_taking_over(handle, code);
    drop_spares(handle);
    if (other.core.at)
        famsync_core_close(other.core);
    return code;
}

int famsync_rollback(famsync *handle)
{
    int code = check_no_group(handle);
    if (code == FAMSYNC_OK)
        code = enter_between_groups(handle);
    if (code == FAMSYNC_OK)
        code = leave_between_groups(handle, handle->transaction > 0 ? FAMSYNC_TRANSACTION : roll_back(handle));
    return answer(handle, __func__, code);
}
