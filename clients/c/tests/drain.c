/* How recorded calls are made, by drain.c alone: over lists of calls that a core might record, and a file in memory.
   Whenever calls are reported to the core, exactly these and those before were made. */
#include "inside.h"

#include <errno.h>
#include <stdio.h>
#include <stdlib.h>
#include <string.h>
#include <unistd.h>

#define MOST_CALLS 1100u

static struct recorded {
    bool syncs;
    uint64_t offset, length;
    uint8_t bytes[PAGE];
} call[MOST_CALLS];

static unsigned calls, reported;                  /* recorded; and how many of them are reported to be made */
static uint8_t made[MOST_CALLS * PAGE];           /* the file */
static size_t size;                               /* how many bytes of it are looked at */
static uint8_t synced[sizeof made];               /* as it was at its last sync */
static uint8_t wanted[sizeof made];               /* as the calls make it that were reported */
static unsigned writes, syncs, fails_at, flagged; /* calls of the system; the one that fails, if any */
static bool in_parts;                             /* each write does a part of what it is asked for, or nothing */

static void want(bool holds, const char *what)
{
    if (!holds) {
        fprintf(stderr, "drain: %s, with %u calls of which %u were reported\n", what, calls, reported);
        exit(1);
    }
}

ssize_t pwritev(int file, const struct iovec *range, int count, off_t offset)
{
    size_t done = 0, length = range[0].iov_len;
    want(file == 7 && count >= 1 && count <= 1024, "a write that the system doesn't take");
    if (++writes + syncs == fails_at) {
        errno = EIO;
        return -1;
    }
    if (in_parts && writes % 3 == 0) {
        errno = EINTR;
        return -1;
    }
    if (in_parts)
        length = (length + 1) / 2, count = 1;
    for (int i = 0; i < count; i++) {
        length = in_parts ? length : range[i].iov_len;
        memcpy(made + offset + done, range[i].iov_base, length);
        done += length;
    }
    return (ssize_t)done;
}

int fdatasync(int file)
{
    want(file == 7, "a sync of another file");
    if (writes + ++syncs == fails_at) {
        errno = EIO;
        return -1;
    }
    memcpy(synced, made, size);
    return 0;
}

int flag_suspect(const struct volume *volume)
{
    (void)volume;
    flagged++;
    return FAMSYNC_OK;
}

void begin_log(famsync *handle, uint32_t position)
{
    (void)handle, (void)position;
}

void follow_log(famsync *handle, uint64_t offset, uint64_t length)
{
    (void)handle, (void)offset, (void)length;
}

int64_t famsync_core_waiting(famsync_core core, uint8_t **at)
{
    *at = core.at;
    return calls - reported;
}

int32_t famsync_core_call(famsync_core core, uint32_t index, uint32_t *kind, uint64_t *offset, const uint8_t **bytes,
                          uint64_t *length, uint8_t **at)
{
    *at = core.at;
    if (index >= calls - reported)
        return FAMSYNC_CORE_NONE;
    *kind = call[reported + index].syncs ? FAMSYNC_CORE_CALL_SYNC : FAMSYNC_CORE_CALL_WRITE;
    *offset = call[reported + index].offset;
    *length = call[reported + index].length;
    *bytes = call[reported + index].bytes;
    return FAMSYNC_CORE_OK;
}

/* Now the file has what the calls up to here make of it; and its last sync what those before the last of these do. */
int32_t famsync_core_carried_out(famsync_core core, uint32_t count, uint8_t **at)
{
    *at = core.at;
    want(count >= 1 && count <= calls - reported, "calls were reported that don't wait");
    for (; count > 0; count--, reported++) {
        if (call[reported].syncs)
            want(memcmp(synced, wanted, size) == 0, "a sync was made too soon or too late");
        else
            memcpy(wanted + call[reported].offset, call[reported].bytes, call[reported].length);
        memset(call[reported].bytes, 0xDD, PAGE); /* which are the core's, and gone */
    }
    want(memcmp(made, wanted, size) == 0, "what was made isn't what was reported");
    return FAMSYNC_CORE_OK;
}

int32_t famsync_core_forget(famsync_core core, uint32_t block, uint8_t **at)
{
    *at = core.at;
    want(block >= 2 && block < size / PAGE, "a block that is no file's was forgotten");
    return FAMSYNC_CORE_OK;
}

void save_for_backup(famsync *handle)
{
    want(handle->backup == NULL, "a backup is being made");
}

static void begin(unsigned pages)
{
    size = (size_t)pages * PAGE;
    memset(made, 0, size);
    memset(synced, 0, size);
    memset(wanted, 0, size);
    calls = reported = writes = syncs = fails_at = flagged = 0;
}

static void record_write(uint64_t offset, uint64_t length)
{
    struct recorded *recorded = &call[calls++];
    *recorded = (struct recorded){.offset = offset, .length = length};
    memset(recorded->bytes, (int)(calls % 255 + 1), length);
}

static void record_sync(void)
{
    call[calls++] = (struct recorded){.syncs = true};
}

static int drained(unsigned pieces)
{
    static uint8_t core;
    famsync handle = {.core = {&core}, .volume = {.file = 7}, .head = 2, .blocks = (uint32_t)(size / PAGE)};
    want(begin_gathering(&handle.gathered, pieces) == FAMSYNC_OK, "no memory");
    int code = drain(&handle);
    want(code == handle.ended, "a code that isn't the session's");
    end_gathering(&handle.gathered);
    return code;
}

/* Any calls: some touch each other, and some are too many to go together. */
static void any_calls(unsigned seed)
{
    srand(seed);
    begin(16);
    for (unsigned count = (unsigned)rand() % 200; count > 0; count--) {
        uint64_t page = (uint64_t)rand() % 15 * PAGE;
        if (rand() % 12 == 0)
            record_sync();
        else if (rand() % 3 == 0)
            record_write(page, PAGE);
        else
            record_write(page + (uint64_t)rand() % PAGE, (uint64_t)rand() % 200 + 1);
    }
    record_sync();
    in_parts = seed % 2 == 0;
    want(drained(seed % 5 == 0 ? 1 : 1 + seed % 40) == FAMSYNC_OK && reported == calls, "calls are left");
    in_parts = false;
}

/* So many pages that are neighbours, the last one first, are so many calls of the system. */
static void neighbours(unsigned pages, unsigned as_calls)
{
    begin(pages);
    for (unsigned page = pages; page > 0; page--)
        record_write((uint64_t)(page - 1) * PAGE, PAGE);
    record_sync();
    want(drained(MOST_CALLS) == FAMSYNC_OK && reported == calls, "calls are left");
    want(writes == as_calls && syncs == 1, "another number of calls of the system");
}

/* Calls that fail, and those behind them, aren't reported to the core. */
static void failing(void)
{
    for (unsigned at = 1; at <= 6; at++) {
        begin(4);
        for (unsigned page = 0; page < 2; page++) {
            record_write(page * 8192, 100);
            record_write(page * 8192 + 4096, 100);
            record_sync();
        }
        fails_at = at;
        want(drained(16) == FAMSYNC_DEVICE && errno == EIO, "a failure that isn't answered");
        want(reported == (at < 3 ? 0 : at == 3 ? 2 : at < 6 ? 3 : 5), "another number of calls was reported");
        want(flagged == (at % 3 == 0), "a suspect flag where no sync failed, or none where one did");
    }
}

/* Writes behind which no sync waits are left, and made with those that come. */
static void not_synced_yet(void)
{
    begin(4);
    want(drained(16) == FAMSYNC_OK && writes == 0, "a write where none waits");
    record_write(4096, 4096);
    want(drained(16) == FAMSYNC_OK && reported == 0 && writes == 0, "a write was made before its sync");
    record_write(0, 4096);
    record_write(8192, 4096);
    record_sync();
    want(drained(16) == FAMSYNC_OK && reported == 4 && writes == 1 && syncs == 1, "neighbours weren't made together");
}

int main(void)
{
    for (unsigned seed = 1; seed <= 400; seed++)
        any_calls(seed);
    neighbours(1, 1);
    neighbours(1021, 1);
    neighbours(1024, 1);
    neighbours(1025, 2);
    failing();
    not_synced_yet();
    printf("clients/c: drain: as it should be\n");
    return 0;
}
