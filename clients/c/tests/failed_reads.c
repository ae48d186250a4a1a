/* A read that fails is answered by FAMSYNC_DEVICE, with how many bytes came before, and the session goes on: the call
   may be made again. A commit reads nothing in layout 6; log.c has those of layout 5, which may read a block. */
#include "test.h"

#include <sys/syscall.h>

/* The log has room for all commits of a session, so that none of them is written home by another one. */
#define ROOM 60

/* Reads from this offset on fail, where it isn't 0. */
static off_t fails_from;

ssize_t pread(int file, void *bytes, size_t count, off_t offset)
{
    if (fails_from > 0 && offset + (off_t)count > fails_from) {
        errno = EIO;
        return -1;
    }
    return syscall(SYS_pread64, file, bytes, count, offset);
}

static famsync *handle;

static void begin(void)
{
    make_volume_of(LAYOUTS, ROOM, "a=2097152"); /* more than what the library keeps of its reads */
    handle = opened_with((struct famsync_options){.foreground = 1});
}

static void reads_and_writes(void)
{
    unsigned char byte = 1;
    begin();
    fails_from = 1;
    for (int i = 0; i < 2; i++) {
        errno = 0;
        WANT_CODE(famsync_read(handle, 0, 0, &byte, 1, NULL), FAMSYNC_DEVICE);
        WANT(errno == EIO);
        WANT_CODE(famsync_write(handle, 0, 0, &byte, 1, NULL), FAMSYNC_DEVICE);
    }
    fails_from = 0;
    WANT_CODE(famsync_read(handle, 0, 0, &byte, 1, NULL), FAMSYNC_OK);
    WANT(byte == 0);
    WANT_CODE(famsync_write(handle, 0, 0, "x", 1, NULL), FAMSYNC_OK);
    WANT_CODE(famsync_msync(handle, NULL), FAMSYNC_OK);
    WANT_CODE(famsync_close(handle), FAMSYNC_OK);
}

/* The offset of a page of the file in the volume. */
static off_t place_of(unsigned page)
{
    return (off_t)(first_home(ROOM) + 1 + page) * 4096;
}

/* Some pages at the begin of a range can be read, and those behind them can't. What is read ahead in one call fails as
   a whole, so the reads are of one page here, but for the last one. */
static void in_the_middle(void)
{
    static unsigned char bytes[20 * 4096];
    size_t done;
    begin();
    for (unsigned page = 0; page < 3; page++)
        WANT_CODE(famsync_read(handle, 0, page * 4096, bytes, 1, NULL), FAMSYNC_OK);
    fails_from = place_of(3);
    memset(bytes, 1, sizeof bytes);
    WANT_CODE(famsync_read(handle, 0, 100, bytes, sizeof bytes, &done), FAMSYNC_DEVICE);
    WANT(done == 3 * 4096 - 100 && errno == EIO && bytes[done - 1] == 0 && bytes[done] == 1);
    WANT_CODE(famsync_read(handle, 0, 100, bytes, done, &done), FAMSYNC_OK);
    WANT(done == 3 * 4096 - 100);
    /* of these pages the last one alone is read before it is written, as the others are written whole */
    WANT_CODE(famsync_write(handle, 0, 4096, bytes, 2 * 4096 + 1, &done), FAMSYNC_DEVICE);
    WANT(done == 2 * 4096 && errno == EIO);
    fails_from = 0;
    WANT_CODE(famsync_write(handle, 0, 4096, bytes, 2 * 4096 + 1, &done), FAMSYNC_OK);
    WANT(done == 2 * 4096 + 1);
    WANT_CODE(famsync_msync(handle, NULL), FAMSYNC_OK);
    WANT_CODE(famsync_close(handle), FAMSYNC_OK);
}

/* Whole pages are written without a read, and so is the end of the file. */
static void whole_pages(void)
{
    static unsigned char bytes[3 * 4096];
    make_volume_of(LAYOUTS, 9, "a=10000");
    handle = opened_with((struct famsync_options){.foreground = 1});
    memset(bytes, 5, sizeof bytes);
    fails_from = 1;
    WANT_CODE(famsync_write(handle, 0, 0, bytes, 10000, NULL), FAMSYNC_OK);
    WANT_CODE(famsync_read(handle, 0, 0, bytes, 10000, NULL), FAMSYNC_OK);
    WANT_CODE(famsync_msync(handle, NULL), FAMSYNC_OK);
    fails_from = 0;
    WANT_CODE(famsync_close(handle), FAMSYNC_OK);
}

static void commits(void)
{
    famsync_memory *memory;
    unsigned char *at;
    begin();
    WANT_CODE(famsync_memory_open(handle, "a", &memory), FAMSYNC_OK);
    at = famsync_memory_at(memory);
    for (unsigned round = 1; round < 6; round++) {
        at[0] = at[5 * 4096] = (unsigned char)round;
        fails_from = 1;
        WANT_CODE(famsync_msync(handle, NULL), FAMSYNC_OK);
        fails_from = 0;
    }
    WANT_CODE(famsync_memory_close(memory), FAMSYNC_OK);
    WANT_CODE(famsync_memory_open(handle, "a", &memory), FAMSYNC_OK);
    at = famsync_memory_at(memory);
    WANT(at[0] == 5 && at[5 * 4096] == 5);
    WANT_CODE(famsync_memory_close(memory), FAMSYNC_OK);
    WANT_CODE(famsync_close(handle), FAMSYNC_OK);
}

/* Plain memory isn't opened where its file can't be read, nor is a file grown whose last page can't be. */
static void others(int resident)
{
    famsync_memory *memory;
    make_volume_of(FIRST_LAYOUT, 8, "a=5000/9000");
    handle = opened_with(
        (struct famsync_options){.size = sizeof(struct famsync_options), .foreground = 1, .resident = resident});
    fails_from = 1;
    WANT_CODE(famsync_memory_open(handle, "a", &memory), FAMSYNC_DEVICE);
    WANT(memory == NULL && errno == EIO);
    WANT_CODE(famsync_setlength(handle, "a", 9000), FAMSYNC_DEVICE);
    WANT(famsync_file_length(handle, 0) == 5000);
    fails_from = 0;
    WANT_CODE(famsync_setlength(handle, "a", 9000), FAMSYNC_OK);
    WANT_CODE(famsync_close(handle), FAMSYNC_OK);
}

int main(void)
{
    reads_and_writes();
    in_the_middle();
    whole_pages();
    commits();
    others(0);
    others(1);
    printf("clients/c: failed_reads: as it should be\n");
    return 0;
}
