/* Backups: a clean volume with the files of the last acknowledged commit, written while commits go on.

   At first all commits are written home, so that the home blocks have these files. Then the home blocks are copied,
   some at a time, and other calls come in between. Whatever is to overwrite a home block that isn't copied yet has its
   old bytes copied before (`save_for_backup`). The super block comes last, after a sync: a file that lacks a part of
   its backup is no volume. What is zeros, as an empty log, is left as a hole. The log begins again
   with the start of a new volume, and in layout 6 with a new key. */
#include "inside.h"

#include <errno.h>
#include <fcntl.h>
#include <sched.h>
#include <stdlib.h>
#include <string.h>
#include <sys/file.h>
#include <sys/mman.h>
#include <sys/stat.h>
#include <unistd.h>

struct backup {
    int file;                  /* what it is written to */
    bool locked;               /* that is locked */
    uint32_t next;             /* home blocks before this one are copied; no block of the log ever is */
    unsigned char *saved;      /* a bit for each block: it was copied before its turn */
    size_t room;               /* the bytes of that */
    int code, error;           /* what went wrong as a block was copied before its turn, and errno */
    unsigned char super[PAGE]; /* the super block */
    unsigned char *piece;      /* room for MOST_READ blocks */
};

static bool is_zeros(const unsigned char *block)
{
    return block[0] == 0 && memcmp(block, block + 1, PAGE - 1) == 0;
}

int write_whole(int file, const unsigned char *bytes, size_t count, uint64_t offset)
{
    while (count > 0) {
        ssize_t written = pwrite(file, bytes, count, (off_t)offset);
        if (written < 0 && errno == EINTR)
            continue;
        if (written == 0)
            errno = ENOSPC;
        if (written <= 0)
            return FAMSYNC_SYSTEM;
        bytes += written;
        count -= (size_t)written;
        offset += (uint64_t)written;
    }
    return FAMSYNC_OK;
}

/* Writes blocks to the backup, but for those of zeros. */
static int write_blocks(const struct backup *backup, uint32_t block, uint32_t count, const unsigned char *bytes)
{
    int code = FAMSYNC_OK;
    for (uint32_t first = 0, end; first < count && code == FAMSYNC_OK; first = end + 1) {
        for (end = first; end < count && !is_zeros(bytes + (size_t)end * PAGE);)
            end++;
        code = write_whole(backup->file, bytes + (size_t)first * PAGE, (size_t)(end - first) * PAGE,
                           ((uint64_t)block + first) * PAGE);
    }
    return code;
}

static int sync_backup(const struct backup *backup)
{
    int synced;
    do
        synced = fsync(backup->file);
    while (synced < 0 && errno == EINTR);
    return synced == 0 ? FAMSYNC_OK : FAMSYNC_SYSTEM;
}

static bool is_saved(const struct backup *backup, uint32_t block)
{
    return backup->saved[block / 8] >> block % 8 & 1;
}

/* Copies a block that is about to be overwritten. */
static int save_block(famsync *handle, struct backup *backup, uint32_t block)
{
    unsigned char bytes[PAGE];
    int code = read_blocks(handle, block, 1, bytes);
    if (code == FAMSYNC_OK)
        code = write_blocks(backup, block, 1, bytes);
    backup->saved[block / 8] |= (unsigned char)(1 << block % 8);
    return code;
}

/* The same for all blocks of a write. */
static int save_piece(famsync *handle, struct backup *backup, const struct piece *piece)
{
    uint64_t end = (piece->offset + piece->length + PAGE - 1) / PAGE;
    int code = FAMSYNC_OK;
    for (uint64_t block = piece->offset / PAGE; block < end && code == FAMSYNC_OK; block++)
        if (block >= backup->next && block < handle->blocks && !is_saved(backup, (uint32_t)block))
            code = save_block(handle, backup, (uint32_t)block);
    return code;
}

/* The writes go on whatever comes of the backup. */
void save_for_backup(famsync *handle)
{
    struct backup *backup = handle->backup;
    for (unsigned i = 0; backup && i < handle->gathered.pieces && backup->code == FAMSYNC_OK; i++) {
        backup->code = save_piece(handle, backup, &handle->gathered.piece[i]);
        backup->error = errno;
    }
}

/* The file is locked as a volume is, so that none which is in use is overwritten. */
static int lock_file(const famsync *handle, struct backup *backup)
{
    struct stat found, own;
    int flags = fcntl(backup->file, F_GETFL);
    if (flags < 0 || fstat(backup->file, &found) != 0 || fstat(handle->volume.file, &own) != 0)
        return FAMSYNC_SYSTEM;
    if (!S_ISREG(found.st_mode))
        return explain(FAMSYNC_ARGUMENT, "the backup's file isn't a regular file");
    if ((flags & O_ACCMODE) != O_RDWR || flags & O_APPEND)
        return explain(FAMSYNC_ARGUMENT, "`descriptor` isn't open for reading and writing, or has O_APPEND");
    if (found.st_dev == own.st_dev && found.st_ino == own.st_ino)
        return explain(FAMSYNC_ARGUMENT, "the backup's file is the volume's file");
    backup->locked = flock(backup->file, LOCK_EX | LOCK_NB) == 0;
    return backup->locked ? FAMSYNC_OK : errno == EWOULDBLOCK ? FAMSYNC_INUSE : FAMSYNC_SYSTEM;
}

/* Empties the file, and gives it the volume's length. */
static int empty_file(const famsync *handle, int file)
{
    bool emptied = ftruncate(file, 0) == 0 && ftruncate(file, (off_t)handle->blocks * PAGE) == 0;
    return emptied ? FAMSYNC_OK : FAMSYNC_SYSTEM;
}

/* Room for what is noted: the system has memory for what is used of it. */
static int take_room(const famsync *handle, struct backup *backup)
{
    void *saved;
    backup->piece = malloc((size_t)MOST_READ * PAGE);
    backup->room = handle->blocks / 8 + 1;
    saved = mmap(NULL, backup->room, PROT_READ | PROT_WRITE, MAP_PRIVATE | MAP_ANONYMOUS | MAP_NORESERVE, -1, 0);
    backup->saved = saved == MAP_FAILED ? NULL : saved;
    return backup->piece && backup->saved ? FAMSYNC_OK : FAMSYNC_NOMEMORY;
}

/* Unlocks the file, and gives the room back. */
static void give_back(const struct backup *backup)
{
    int error = errno;
    if (backup->locked)
        (void)flock(backup->file, LOCK_UN);
    free(backup->piece);
    if (backup->saved)
        munmap(backup->saved, backup->room);
    errno = error;
}

/* From here on the home blocks are copied before they are overwritten; the caller has its turn. The block before the
   first file's has the lengths. */
static int begin(famsync *handle, struct backup *backup)
{
    int code = handle->backup ? explain(FAMSYNC_BUSY, "another backup with this handle is in progress")
                              : lock_file(handle, backup);
    if (code == FAMSYNC_INUSE)
        explain(code, "the backup's file is already locked");
    if (code == FAMSYNC_OK)
        code = write_all_out(handle);
    if (code == FAMSYNC_OK)
        code = empty_file(handle, backup->file);
    if (code == FAMSYNC_OK)
        code = take_room(handle, backup);
    if (code == FAMSYNC_OK)
        code = read_blocks(handle, 0, 1, backup->super);
    if (code == FAMSYNC_OK)
        code = change_key(backup->super);
    if (code != FAMSYNC_OK)
        return code;
    backup->next = handle->head - 1;
    handle->backup = backup;
    return FAMSYNC_OK;
}

/* Goes to the next block that isn't in a hole of the volume's file, where the system knows of holes. */
static void skip_hole(famsync *handle, struct backup *backup)
{
    off_t data = lseek(handle->volume.file, (off_t)backup->next * PAGE, SEEK_DATA);
    if (data < 0 && errno == ENXIO)
        backup->next = handle->blocks;
    else if (data >= 0 && data / PAGE > backup->next)
        backup->next = data / PAGE < handle->blocks ? (uint32_t)(data / PAGE) : handle->blocks;
}

/* Reads the next blocks; of those that were copied already the piece has zeros, which aren't written. */
static int read_piece(famsync *handle, struct backup *backup, struct reading *piece)
{
    int code;
    skip_hole(handle, backup);
    piece->first = backup->next;
    piece->count = handle->blocks - backup->next < MOST_READ ? handle->blocks - backup->next : MOST_READ;
    code = read_blocks(handle, piece->first, piece->count, backup->piece);
    for (uint32_t i = 0; i < piece->count; i++)
        if (is_saved(backup, piece->first + i))
            memset(backup->piece + (size_t)i * PAGE, 0, PAGE);
    backup->next += piece->count;
    return code;
}

/* Copies the home blocks. Between two pieces others have the turn. */
static int copy_homes(famsync *handle, struct backup *backup)
{
    struct reading piece = {0, 1};
    int code = FAMSYNC_OK;
    while (code == FAMSYNC_OK && piece.count > 0) {
        code = enter(handle, true);
        if (code == FAMSYNC_OK)
            code = leave(handle, read_piece(handle, backup, &piece));
        if (code == FAMSYNC_OK)
            code = write_blocks(backup, piece.first, piece.count, backup->piece);
        sched_yield();
    }
    return code;
}

/* No block is copied before its turn any more. What went wrong with one that was is answered. */
static int end(famsync *handle, const struct backup *backup, int code)
{
    int error = errno;
    pthread_mutex_lock(&handle->turn);
    handle->backup = NULL;
    pthread_mutex_unlock(&handle->turn);
    errno = error;
    if (code != FAMSYNC_OK || backup->code == FAMSYNC_OK)
        return code;
    errno = backup->error;
    return backup->code;
}

/* Writes the backup, which has begun. */
static int write_backup(famsync *handle, struct backup *backup)
{
    int code = end(handle, backup, copy_homes(handle, backup));
    if (code == FAMSYNC_OK)
        code = write_first_start(backup->file);
    if (code == FAMSYNC_OK)
        code = sync_backup(backup);
    if (code == FAMSYNC_OK)
        code = write_whole(backup->file, backup->super, PAGE, 0);
    return code == FAMSYNC_OK ? sync_backup(backup) : code;
}

int famsync_backup(famsync *handle, int descriptor)
{
    struct backup backup = {.file = descriptor};
    int cancel = hold_off_cancel(), code = enter_unless(handle, descriptor >= 0 ? NULL : "`descriptor` is negative");
    if (code == FAMSYNC_OK)
        code = leave(handle, begin(handle, &backup));
    if (code == FAMSYNC_OK)
        code = write_backup(handle, &backup);
    give_back(&backup);
    allow_cancel(cancel);
    return answer(handle, __func__, code);
}
