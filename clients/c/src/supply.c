/* Reads blocks of the volume and supplies them to the core. A read that fails changes nothing: the call that wanted the
   block is refused, and may be tried again. */
#include "inside.h"

#include <errno.h>
#include <string.h>
#include <unistd.h>

/* A file that ends before was cut off by somebody who didn't ask for the lock. */
int read_blocks(famsync *handle, uint32_t block, uint32_t count, unsigned char *bytes)
{
    size_t size = (size_t)count * PAGE, have = 0;
    while (have < size) {
        ssize_t got = pread(handle->volume.file, bytes + have, size - have, (off_t)((uint64_t)block * PAGE + have));
        handle->counts.reads++;
        if (got < 0 && errno == EINTR)
            continue;
        if (got == 0)
            errno = EIO;
        if (got <= 0)
            return FAMSYNC_DEVICE;
        have += (size_t)got;
    }
    return FAMSYNC_OK;
}

/* Reads blocks and supplies those of them that the core doesn't know: of the others it has later bytes. */
static int read_and_supply(famsync *handle, uint32_t block, uint32_t count)
{
    int code = read_blocks(handle, block, count, handle->read);
    for (uint32_t i = 0; i < count && code == FAMSYNC_OK; i++)
        if (famsync_core_is_known(handle->core, block + i, &handle->core.at) == 0)
            code = code_of(
                famsync_core_supply(handle->core, block + i, handle->read + (size_t)i * PAGE, PAGE, &handle->core.at));
    return code;
}

/* The core opens the volume from the beginning after each block that it lacked. So if it goes through the volume, MORE
   times as many blocks are read as the time before, up to MOST, and then twice as many. If it wants
   the next descriptor of the log a few blocks behind the last one, HOPS times come before. */
enum { MORE = 32, MOST = 1024, NEAR = 64, HOPS = 4 };

/* The number of blocks to read from this one on, which the core wants. */
static uint32_t count_to_open(const famsync *handle, uint32_t block, struct opening *opening)
{
    const struct reading *last = &opening->last;
    uint32_t end = last->first + last->count, left = handle->blocks - block;
    uint64_t count = 1;
    if (last->count == 0 || block < end || block - end > NEAR)
        opening->hops = 0;
    else if (block > end)
        opening->hops++;
    if (last->count > 0 && (block == end || opening->hops >= HOPS))
        count = (uint64_t)last->count * (last->count < MOST ? MORE : 2);
    if (last->count < MOST && count > MOST)
        count = MOST;
    return count < left ? (uint32_t)count : left;
}

int supply_to_open(famsync *handle, uint32_t block, struct opening *opening)
{
    uint32_t count, end;
    int code = FAMSYNC_OK;
    /* what is known isn't wanted: it would be asked for again and again */
    if (block >= handle->blocks || famsync_core_is_known(handle->core, block, &handle->core.at) != 0)
        return FAMSYNC_DEVICE;
    count = count_to_open(handle, block, opening);
    opening->last = (struct reading){block, count};
    end = block + count;
    opening->end = end > opening->end ? end : opening->end;
    for (; block < end && code == FAMSYNC_OK; block += MOST_READ)
        code = read_and_supply(handle, block, end - block < MOST_READ ? end - block : MOST_READ);
    return code;
}

void forget_supplied(famsync *handle, const struct opening *opening)
{
    for (uint32_t block = FIRST_OF_LOG; block < opening->end; block++)
        famsync_core_forget(handle->core, block, &handle->core.at);
}

/* Whether a block is one of those that were read by the reads that are kept. */
static bool is_kept(const famsync *handle, uint32_t block)
{
    for (unsigned i = 0; i < READS_KEPT; i++)
        if (block >= handle->reading[i].first && block - handle->reading[i].first < handle->reading[i].count)
            return true;
    return false;
}

/* Makes room for another read: what was read for the oldest is read again where it is wanted. A block that was read
   again since then stays: the core wants two at once for a commit to a log. */
static void forget_oldest(famsync *handle, struct reading *reading)
{
    struct reading oldest = *reading;
    reading->count = 0;
    for (uint32_t i = 0; i < oldest.count; i++)
        if (!is_kept(handle, oldest.first + i))
            famsync_core_forget(handle->core, oldest.first + i, &handle->core.at);
}

int supply(famsync *handle, uint32_t block, uint64_t pages)
{
    uint32_t count = pages < MOST_READ ? (uint32_t)pages : MOST_READ;
    struct reading *reading = &handle->reading[handle->readings % READS_KEPT];
    /* what is known isn't wanted: it would be asked for again and again */
    if (block >= handle->blocks || famsync_core_is_known(handle->core, block, &handle->core.at) != 0)
        return FAMSYNC_DEVICE;
    if (count > handle->blocks - block)
        count = handle->blocks - block;
    forget_oldest(handle, reading);
    if (block >= FIRST_OF_LOG) {
        *reading = (struct reading){block, count};
        handle->readings++;
    }
    return read_and_supply(handle, block, count);
}
