/* Makes the calls that the core has recorded on the volume's file, in order, and reports them to it then.

   Writes that no sync parts are gathered, and those whose places are neighbours become one system call. By that they
   are made in another order than they were recorded in, and that says nothing: of the writes since the last sync a disk
   may keep after a crash any part in any order, so a run whose writes were made in the recorded order can leave
   whatever this one leaves, as long as no two of them touch the same byte. Those that do are never gathered together. A
   sync is made by itself, after all before it and before all after it. */
#include "inside.h"

#include <errno.h>
#include <stdlib.h>
#include <string.h>
#include <unistd.h>

/* The most ranges of memory that one system call writes, as Linux has it. */
#define MOST_RANGES 1024u

struct call {
    uint32_t kind;
    uint64_t offset, length;
    const uint8_t *bytes;
};

int begin_gathering(struct gathered *gathered, unsigned pieces)
{
    gathered->most = pieces;
    gathered->piece = calloc(pieces, sizeof *gathered->piece);
    gathered->range = calloc(pieces < MOST_RANGES ? pieces : MOST_RANGES, sizeof *gathered->range);
    return gathered->piece && gathered->range ? FAMSYNC_OK : FAMSYNC_NOMEMORY;
}

void end_gathering(struct gathered *gathered)
{
    free(gathered->piece);
    free(gathered->range);
    free(gathered->late);
}

/* Ends the session: a call of the volume's file failed. */
static int fail(famsync *handle, int code)
{
    handle->ended = code;
    handle->error = errno;
    return code;
}

/* Writes ranges of memory to the volume from an offset on, whole. */
static int write_ranges(famsync *handle, struct iovec *range, unsigned count, uint64_t offset)
{
    while (count > 0) {
        ssize_t written = pwritev(handle->volume.file, range, (int)count, (off_t)offset);
        handle->counts.writes++;
        if (written < 0 && errno == EINTR)
            continue;
        if (written <= 0) {
            if (written == 0)
                errno = ENOSPC;
            return fail(handle, FAMSYNC_DEVICE);
        }
        handle->counts.bytes_written += (uint64_t)written;
        offset += (uint64_t)written;
        for (; count > 0 && (size_t)written >= range->iov_len; range++, count--)
            written -= (ssize_t)range->iov_len;
        if (count > 0) {
            range->iov_base = (unsigned char *)range->iov_base + written;
            range->iov_len -= (size_t)written;
        }
    }
    return FAMSYNC_OK;
}

/* Makes the oldest call, a sync. Where it fails, the volume is flagged as suspect before any call reports that. The
   file had its length, and its blocks were written, when the volume was made, so its data is all there is to sync. */
static int make_sync(famsync *handle)
{
    int synced, error, code;
    do
        synced = fdatasync(handle->volume.file);
    while (synced < 0 && errno == EINTR);
    handle->counts.syncs++;
    if (synced == 0) {
        famsync_core_carried_out(handle->core, 1, &handle->core.at);
        return FAMSYNC_OK;
    }
    error = errno;
    code = flag_suspect(&handle->volume) == FAMSYNC_OK ? FAMSYNC_DEVICE : FAMSYNC_UNMARKED;
    errno = error;
    return fail(handle, code);
}

/* How many of the gathered pieces lie below an offset. */
static unsigned pieces_below(const struct gathered *gathered, uint64_t offset)
{
    unsigned low = 0, high = gathered->pieces;
    while (low < high) {
        unsigned middle = low + (high - low) / 2;
        if (gathered->piece[middle].offset < offset)
            low = middle + 1;
        else
            high = middle;
    }
    return low;
}

/* Gathers a write, unless there is no room for it or it touches what another one writes. The first one has room. */
static bool gather(struct gathered *gathered, const struct call *call)
{
    unsigned place = pieces_below(gathered, call->offset);
    struct piece *at = &gathered->piece[place];
    if (gathered->pieces == gathered->most)
        return false;
    if (place > 0 && at[-1].offset + at[-1].length > call->offset)
        return false;
    if (place < gathered->pieces && call->offset + call->length > at->offset)
        return false;
    memmove(at + 1, at, (gathered->pieces - place) * sizeof *at);
    *at = (struct piece){call->offset, (size_t)call->length, call->bytes};
    gathered->pieces++;
    return true;
}

/* The call that waits behind so many others. Its bytes are the core's, and stay where they are as long as calls are
   looked at and nothing else is asked. */
static bool look_at(famsync *handle, uint32_t others, struct call *call)
{
    return famsync_core_call(handle->core, others, &call->kind, &call->offset, &call->bytes, &call->length,
                             &handle->core.at) == FAMSYNC_CORE_OK;
}

/* The newest call that waits, if there is one. */
static bool look_at_newest(famsync *handle, struct call *newest)
{
    int64_t waiting = famsync_core_waiting(handle->core, &handle->core.at);
    return waiting > 0 && look_at(handle, (uint32_t)waiting - 1, newest);
}

/* Whether a call writes only to the blocks of the starts. */
static bool writes_start(const struct call *call)
{
    return call->kind != FAMSYNC_CORE_CALL_SYNC && call->offset >= PAGE &&
           call->offset + call->length <= FIRST_OF_LOG * PAGE;
}

bool carries_out_commits(famsync *handle)
{
    struct call call;
    for (uint32_t others = 0; look_at(handle, others, &call); others++)
        if (call.kind != FAMSYNC_CORE_CALL_SYNC && !writes_start(&call))
            return true;
    return false;
}

/* The start that an opening writes comes behind all commits. Its byte 16 begins the position (docs/FORMATS.md). */
void note_position(famsync *handle)
{
    struct call call;
    for (uint32_t others = 0; look_at(handle, others, &call); others++)
        if (writes_start(&call) && call.length == PAGE)
            begin_log(handle, (uint32_t)call.bytes[16] << 24 | (uint32_t)call.bytes[17] << 16 |
                                  (uint32_t)call.bytes[18] << 8 | call.bytes[19]);
}

bool ends_with_sync(famsync *handle)
{
    struct call newest;
    return look_at_newest(handle, &newest) && newest.kind == FAMSYNC_CORE_CALL_SYNC;
}

bool ends_with_start(famsync *handle)
{
    struct call newest;
    return look_at_newest(handle, &newest) && writes_start(&newest);
}

/* Gathers the oldest writes, up to a sync or to one that can't go with them. */
static void gather_oldest(famsync *handle)
{
    struct gathered *gathered = &handle->gathered;
    struct call call;
    gathered->pieces = 0;
    while (look_at(handle, gathered->pieces, &call) && call.kind != FAMSYNC_CORE_CALL_SYNC && gather(gathered, &call))
        follow_log(handle, call.offset, call.length);
}

/* Adds a piece to ranges of memory that one call writes; where it lies behind the last one, that becomes longer. */
static bool add_range(struct iovec *range, unsigned *count, const struct piece *piece)
{
    struct iovec *last = *count > 0 ? &range[*count - 1] : NULL;
    if (last && (const uint8_t *)last->iov_base + last->iov_len == piece->bytes) {
        last->iov_len += piece->length;
        return true;
    }
    if (*count == MOST_RANGES)
        return false;
    range[(*count)++] = (struct iovec){(void *)(uintptr_t)piece->bytes, piece->length};
    return true;
}

/* Writes what was gathered, neighbours by one call. */
static int write_gathered(famsync *handle)
{
    struct gathered *gathered = &handle->gathered;
    int code = FAMSYNC_OK;
    for (unsigned first = 0; first < gathered->pieces && code == FAMSYNC_OK;) {
        uint64_t begin = gathered->piece[first].offset, end = begin;
        unsigned count = 0;
        while (first < gathered->pieces && gathered->piece[first].offset == end &&
               add_range(gathered->range, &count, &gathered->piece[first]))
            end += gathered->piece[first++].length;
        code = write_ranges(handle, gathered->range, count, begin);
    }
    return code;
}

/* The blocks of a write that are forgotten. Where a write of several blocks ends within one, a log's next commit begins
   there, and the core would want that block again. So it is kept, unless the write is long: the core keeps all of its
   bytes then. */
static struct reading blocks_of(const famsync *handle, const struct piece *piece)
{
    uint64_t block = piece->offset / PAGE, end = (piece->offset + piece->length) / PAGE;
    if (end == block || end - block > MOST_READ)
        end = (piece->offset + piece->length + PAGE - 1) / PAGE;
    if (block < FIRST_OF_LOG)
        block = FIRST_OF_LOG;
    if (end > handle->blocks)
        end = handle->blocks;
    return (struct reading){(uint32_t)block, block < end ? (uint32_t)(end - block) : 0};
}

static void forget_blocks(famsync *handle, struct reading blocks)
{
    for (uint32_t i = 0; i < blocks.count; i++)
        famsync_core_forget(handle->core, blocks.first + i, &handle->core.at);
}

/* Leaves it until later to forget some blocks. Whether there was memory to note them. */
static bool postpone(struct gathered *gathered, struct reading blocks)
{
    struct reading *last = gathered->lates > 0 ? &gathered->late[gathered->lates - 1] : NULL;
    if (last && last->first + last->count == blocks.first) {
        last->count += blocks.count;
        return true;
    }
    if (gathered->lates == gathered->room) {
        unsigned room = 2 * gathered->room + MOST_WAITING;
        struct reading *late = realloc(gathered->late, room * sizeof *late);
        if (!late)
            return false;
        gathered->late = late;
        gathered->room = room;
    }
    gathered->late[gathered->lates++] = blocks;
    return true;
}

/* The core needs a block of a file or of a log no longer once it is written: it is read again where it is wanted. As it
   compares a block that it forgets with each waiting write, this is left until later if there are many. */
static void forget_gathered(famsync *handle)
{
    bool many = famsync_core_waiting(handle->core, &handle->core.at) > MOST_WAITING;
    for (unsigned i = 0; i < handle->gathered.pieces; i++) {
        struct reading blocks = blocks_of(handle, &handle->gathered.piece[i]);
        if (!many || !postpone(&handle->gathered, blocks))
            forget_blocks(handle, blocks);
    }
}

/* Forgets what was left until no call waits. */
static void forget_late(famsync *handle)
{
    struct gathered *gathered = &handle->gathered;
    for (unsigned i = 0; i < gathered->lates; i++)
        forget_blocks(handle, gathered->late[i]);
    free(gathered->late);
    gathered->late = NULL;
    gathered->lates = gathered->room = 0;
}

/* Makes the oldest writes together, and reports them to the core when all of them are made. */
static int make_writes(famsync *handle)
{
    int code;
    gather_oldest(handle);
    save_for_backup(handle);
    code = write_gathered(handle);
    if (code == FAMSYNC_OK) {
        famsync_core_carried_out(handle->core, handle->gathered.pieces, &handle->core.at);
        forget_gathered(handle);
    }
    return code;
}

int drain_all(famsync *handle)
{
    struct call oldest;
    int code = handle->ended;
    if (code != FAMSYNC_OK)
        errno = handle->error;
    while (code == FAMSYNC_OK && look_at(handle, 0, &oldest))
        code = oldest.kind == FAMSYNC_CORE_CALL_SYNC ? make_sync(handle) : make_writes(handle);
    if (code == FAMSYNC_OK && handle->gathered.lates > 0)
        forget_late(handle);
    return code;
}

int drain(famsync *handle)
{
    return ends_with_sync(handle) ? drain_all(handle) : FAMSYNC_OK;
}

int drain_many(famsync *handle)
{
    return famsync_core_waiting(handle->core, &handle->core.at) >= MOST_WAITING ? drain_all(handle) : FAMSYNC_OK;
}

/* The calls of an opening need no new blocks, where commits allocated theirs. So nothing is allocated for them: xfs has
   no room for that on a full disk, even if the blocks are allocated. The call that failed is the oldest that waits. */
int drain_opening(famsync *handle)
{
    struct call failed;
    int code = drain(handle);
    bool is_full = code == FAMSYNC_DEVICE && (errno == ENOSPC || errno == EDQUOT);
    return is_full && look_at(handle, 0, &failed) && failed.kind != FAMSYNC_CORE_CALL_SYNC ? FAMSYNC_NOSPACE : code;
}
