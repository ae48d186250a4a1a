/* Room on the disk. Before a commit is handed to the core, the library allocates all blocks that the commit writes, now
   or later: blocks of the log, and the home blocks of its pages. So a full disk refuses a commit of which nothing is
   written yet, and the session goes on. No byte changes by that, and no block is asked for twice. */
#include "inside.h"

#include <errno.h>
#include <fcntl.h>
#include <stdlib.h>
#include <sys/mman.h>
#include <sys/statvfs.h>
#include <unistd.h>

/* The most blocks whose state is noted after one look at the file. */
#define MOST_NOTED (1u << 20)

/* A log is allocated in this number of parts, if a part is at most 1/PARTS of what the disk has free. */
#define PARTS 16u

/* `end` once all blocks of the log are allocated. */
#define WHOLE UINT64_MAX

/* The bits of the blocks from `first` on, up to but not including `end`, in a word of the bitmap. */
static uint64_t bits_of(uint64_t word, uint64_t first, uint64_t end)
{
    uint64_t low = first > word * 64 ? first - word * 64 : 0, high = end - word * 64;
    return (high < 64 ? (UINT64_C(1) << high) - 1 : UINT64_MAX) & UINT64_MAX << low;
}

static void set_known(struct space *space, uint64_t first, uint64_t end, bool known)
{
    for (uint64_t word = first / 64; word * 64 < end; word++)
        if (known)
            space->known[word] |= bits_of(word, first, end);
        else
            space->known[word] &= ~bits_of(word, first, end);
}

static bool is_known(const struct space *space, uint64_t block)
{
    return space->known[block / 64] >> block % 64 & 1;
}

/* The system has memory for what is used of the bitmap. */
int begin_space(famsync *handle)
{
    struct space *space = &handle->space;
    void *known;
    space->room = ((size_t)handle->blocks / 64 + 1) * sizeof *space->known;
    known = mmap(NULL, space->room, PROT_READ | PROT_WRITE, MAP_PRIVATE | MAP_ANONYMOUS | MAP_NORESERVE, -1, 0);
    space->known = known == MAP_FAILED ? NULL : known;
    return space->known ? FAMSYNC_OK : FAMSYNC_NOMEMORY;
}

void end_space(struct space *space)
{
    if (space->known)
        munmap(space->known, space->room);
    free(space->claim);
}

/* What a failed allocation means. Without room nothing is promised. A file system that can't allocate ahead, or a
   system that doesn't let this process do so, isn't asked again: then a write may find the disk full. */
static int judge_failure(struct space *space)
{
    switch (errno) {
    case ENOSPC:
    case EDQUOT:
    case EFBIG:
        return FAMSYNC_NOSPACE;
    case ENOMEM:
        return FAMSYNC_NOMEMORY;
    case EIO:
        return FAMSYNC_DEVICE;
    default:
        space->cannot = true;
        return FAMSYNC_OK;
    }
}

/* Not the emulation of the C library, which writes to the file. The size is kept: a file that was cut off stays so. */
static int allocate_run(famsync *handle, uint64_t first, uint64_t end)
{
    int made;
    do
        made = fallocate(handle->volume.file, FALLOC_FL_KEEP_SIZE, (off_t)(first * PAGE),
                         (off_t)((end - first) * PAGE));
    while (made != 0 && errno == EINTR);
    if (made != 0)
        return judge_failure(&handle->space);
    set_known(&handle->space, first, end, true);
    return FAMSYNC_OK;
}

/* Whether the system tells holes from data. One that doesn't calls the whole file data. */
static bool sees_holes(famsync *handle)
{
    struct space *space = &handle->space;
    if (space->sees == UNKNOWN) {
        const struct volume *volume = &handle->volume;
        off_t hole = lseek(volume->file, 0, SEEK_HOLE);
        bool is_whole = hole >= 0 && (uint64_t)hole >= volume->bytes;
        space->sees = hole >= 0 && (!is_whole || volume->on_disk >= volume->bytes) ? YES : NO;
    }
    return space->sees == YES;
}

/* Notes the blocks from `first` on that are allocated for they have data, and returns the first of the others. An
   allocation would make the next sync write more, even where it finds all blocks allocated. `*hole_end` is the end of
   the hole there, as far as that is known. One look is enough for all blocks of a hole: a file system may look at each
   allocated block in it. */
static uint64_t skip_data(famsync *handle, uint64_t first, uint64_t *hole_end)
{
    struct span *found = &handle->space.hole;
    off_t at = (off_t)(first * PAGE), data = -1;
    uint64_t hole;
    if (first < found->begin || first >= found->end) {
        data = lseek(handle->volume.file, at, SEEK_DATA);
        *found = (struct span){first, first};
        if (data > at)
            found->end = ((size_t)data + PAGE - 1) / PAGE;
        else if (data < 0 && errno == ENXIO)
            found->end = handle->blocks;
    }
    if (found->end > first)
        *hole_end = found->end;
    if (data != at)
        return first;
    hole = (uint64_t)lseek(handle->volume.file, at, SEEK_HOLE) / PAGE;
    if (hole > handle->blocks)
        hole = handle->blocks;
    if (hole > first + MOST_NOTED)
        hole = first + MOST_NOTED;
    if (hole <= first)
        return first;
    set_known(&handle->space, first, hole, true);
    return hole;
}

/* Allocates the blocks from `first` on, up to but not including `end`. */
static int allocate(famsync *handle, uint64_t first, uint64_t end)
{
    int code = FAMSYNC_OK;
    while (first < end && code == FAMSYNC_OK && !handle->space.cannot) {
        uint64_t hole_end = end, next = sees_holes(handle) ? skip_data(handle, first, &hole_end) : first;
        if (next == first) {
            next = hole_end < end ? hole_end : end;
            code = allocate_run(handle, first, next);
        }
        first = next;
    }
    return code;
}

/* Notes that the next commit writes this block. */
static int claim_block(struct space *space, unsigned file, uint64_t block)
{
    struct claim *last = space->claims > 0 ? &space->claim[space->claims - 1] : NULL;
    if (!last || last->file != file || last->end != block) {
        if (space->claims == space->most) {
            size_t most = space->most > 0 ? 2 * space->most : 16;
            struct claim *claim = realloc(space->claim, most * sizeof *claim);
            if (!claim)
                return FAMSYNC_NOMEMORY;
            space->claim = claim;
            space->most = most;
        }
        last = &space->claim[space->claims++];
        *last = (struct claim){file, block, block};
    }
    last->end = block + 1;
    set_known(space, block, block + 1, true);
    return FAMSYNC_OK;
}

int claim_pages(famsync *handle, unsigned file, uint64_t page, uint64_t pages)
{
    struct space *space = &handle->space;
    uint64_t first = handle->file[file].home + page, end = first + pages;
    int code = FAMSYNC_OK;
    for (uint64_t word = first / 64; word * 64 < end; word++) {
        uint64_t missing = bits_of(word, first, end) & ~space->known[word];
        for (; missing != 0 && code == FAMSYNC_OK; missing &= missing - 1)
            code = claim_block(space, file, word * 64 + (unsigned)__builtin_ctzll(missing));
    }
    return code;
}

void forget_claims(famsync *handle)
{
    struct space *space = &handle->space;
    for (size_t i = 0; i < space->claims; i++)
        set_known(space, space->claim[i].begin, space->claim[i].end, false);
    space->claims = 0;
}

/* Allocates the home blocks of the pages that were claimed, unless the file has become shorter than that. */
static int allocate_claims(famsync *handle)
{
    struct space *space = &handle->space;
    int code = FAMSYNC_OK;
    for (size_t i = 0; i < space->claims && code == FAMSYNC_OK; i++) {
        const struct claim *claim = &space->claim[i];
        const struct file *file = &handle->file[claim->file];
        uint64_t most = file->home + (file->length + PAGE - 1) / PAGE, end = claim->end < most ? claim->end : most;
        if (claim->begin < end)
            code = allocate(handle, claim->begin, end);
        if (end < claim->end)
            set_known(space, end > claim->begin ? end : claim->begin, claim->end, false);
    }
    if (code == FAMSYNC_OK)
        space->claims = 0;
    return code;
}

void begin_log(famsync *handle, uint32_t position)
{
    struct space *space = &handle->space;
    if (space->next % handle->log.blocks != position)
        space->first = space->next = space->end = position;
}

/* A commit's writes follow each other in the log, and the first one begins where the commit before ended. The last one
   may have a byte of the block behind the commit. */
void follow_log(famsync *handle, uint64_t offset, uint64_t length)
{
    struct space *space = &handle->space;
    uint64_t block = offset / PAGE;
    if (block < FIRST_OF_LOG || block >= FIRST_OF_LOG + handle->log.blocks)
        return;
    if (block - FIRST_OF_LOG == space->next % handle->log.blocks)
        space->next += (offset + length) / PAGE - block;
}

/* Goes on with the blocks of the log that are known to be allocated. */
static void extend_log(famsync *handle)
{
    struct space *space = &handle->space;
    uint64_t blocks = handle->log.blocks, most = space->first + blocks;
    while (space->end < most && is_known(space, FIRST_OF_LOG + space->end % blocks))
        space->end++;
    if (space->end >= most)
        space->end = WHOLE;
}

/* Allocates blocks of the log up to a position, which counts on where the log begins again. */
static int allocate_log(famsync *handle, uint64_t end)
{
    struct space *space = &handle->space;
    uint64_t blocks = handle->log.blocks;
    int code = FAMSYNC_OK;
    if (end > space->first + blocks)
        end = space->first + blocks;
    extend_log(handle);
    while (space->end < end && code == FAMSYNC_OK && !space->cannot) {
        uint64_t at = space->end % blocks, most = end - space->end < blocks - at ? end - space->end : blocks - at;
        code = allocate(handle, FIRST_OF_LOG + at, FIRST_OF_LOG + at + most);
        extend_log(handle);
    }
    return code;
}

/* The blocks of the log that a commit writes: it may write one byte behind its own. */
static uint64_t blocks_of_commit(uint64_t records)
{
    return (32 + 4 * records + PAGE - 1) / PAGE + records + 1;
}

/* Allocates more of the log, so that most commits find their blocks allocated. Where the disk has little room, that is
   left to the pages. */
static void allocate_ahead(famsync *handle)
{
    uint64_t ahead = handle->log.blocks / PARTS;
    struct statvfs found;
    if (fstatvfs(handle->volume.file, &found) == 0 && found.f_bavail / PARTS >= ahead * PAGE / found.f_frsize)
        (void)allocate_log(handle, handle->space.next + ahead);
}

int reserve_space(famsync *handle)
{
    struct space *space = &handle->space;
    uint32_t records = (uint32_t)famsync_core_staged(handle->core, &handle->core.at) + handle->resized;
    uint64_t end = space->next + blocks_of_commit(records);
    bool goes_on = end > space->end;
    int code = FAMSYNC_OK;
    space->hole = (struct span){0, 0};
    if (records == 0 || space->cannot)
        return FAMSYNC_OK;
    if (goes_on)
        code = allocate_log(handle, end);
    if (code == FAMSYNC_OK && handle->resized && !is_known(space, handle->head - 1))
        code = allocate(handle, handle->head - 1, handle->head);
    if (code == FAMSYNC_OK && space->claims > 0)
        code = allocate_claims(handle);
    if (code == FAMSYNC_OK && goes_on && space->end != WHOLE)
        allocate_ahead(handle);
    return code;
}
