/*
 * The rollback journal of a database, in memory, whatever journal_mode is.
 *
 * It serves ROLLBACK alone. A transaction is one commit of the volume, so a kill leaves nothing to roll back. No file
 * lies beside the volume: it would have one name for all databases in the volume, and the next one that is opened would
 * play it back.
 *
 * In a transaction over several databases each journal names the super-journal, a file that names the journals. SQLite
 * plays a journal back only while this file exists. It removes the file when it finds no journal that names the file.
 * But it doesn't find journals in memory. So the file counts as existing as long as a journal in memory names it.
 */
#include "vfs.h"

#include <string.h>

#define LEAST_ROOM 65536

/* The journals that are open; the mutex guards the list, and the changes of journals. */
static struct journal *open_journals;

/* A journal ends with the super-journal's name, two numbers of 4 bytes and these bytes, if it names one. */
#define AFTER_NAME 16
static const unsigned char end_of_name[8] = {0xd9, 0xd5, 0x05, 0xf9, 0x20, 0xa1, 0x63, 0xd7};

static bool names(const struct journal *journal, const char *path)
{
    sqlite3_int64 length = (sqlite3_int64)strlen(path), at = journal->size - AFTER_NAME - length;
    return at >= 0 && memcmp(journal->bytes + at, path, (size_t)length) == 0 &&
           memcmp(journal->bytes + journal->size - sizeof end_of_name, end_of_name, sizeof end_of_name) == 0;
}

bool is_named_by_a_journal(const char *path)
{
    sqlite3_mutex *turn = take_turn();
    const struct journal *journal = open_journals;
    while (journal && !names(journal, path))
        journal = journal->next;
    sqlite3_mutex_leave(turn);
    return journal != NULL;
}

static int close_journal(sqlite3_file *file)
{
    struct journal *journal = (struct journal *)file;
    sqlite3_mutex *turn = take_turn();
    struct journal **place = &open_journals;
    while (*place != journal)
        place = &(*place)->next;
    *place = journal->next;
    sqlite3_mutex_leave(turn);
    sqlite3_free(journal->bytes);
    return SQLITE_OK;
}

static int read_journal(sqlite3_file *file, void *bytes, int count, sqlite3_int64 at)
{
    const struct journal *journal = (const struct journal *)file;
    sqlite3_int64 left = at < journal->size ? journal->size - at : 0;
    size_t some = left < count ? (size_t)left : (size_t)count;
    if (some > 0)
        memcpy(bytes, journal->bytes + at, some);
    memset((char *)bytes + some, 0, (size_t)count - some);
    return some < (size_t)count ? SQLITE_IOERR_SHORT_READ : SQLITE_OK;
}

/* Makes room for so many bytes. */
static int grow(struct journal *journal, sqlite3_int64 size)
{
    sqlite3_int64 room = journal->room > LEAST_ROOM ? journal->room : LEAST_ROOM;
    unsigned char *bytes;
    while (room < size)
        room *= 2;
    if (room == journal->room)
        return SQLITE_OK;
    bytes = sqlite3_realloc64(journal->bytes, (sqlite3_uint64)room);
    if (!bytes)
        return SQLITE_IOERR_NOMEM;
    journal->bytes = bytes;
    journal->room = room;
    return SQLITE_OK;
}

static void put_bytes(struct journal *journal, const void *bytes, int count, sqlite3_int64 at)
{
    if (at > journal->size)
        memset(journal->bytes + journal->size, 0, (size_t)(at - journal->size));
    memcpy(journal->bytes + at, bytes, (size_t)count);
    if (at + count > journal->size)
        journal->size = at + count;
}

static int write_journal(sqlite3_file *file, const void *bytes, int count, sqlite3_int64 at)
{
    struct journal *journal = (struct journal *)file;
    sqlite3_mutex *turn = take_turn();
    int code = grow(journal, at + count);
    if (code == SQLITE_OK)
        put_bytes(journal, bytes, count, at);
    sqlite3_mutex_leave(turn);
    return code;
}

static int truncate_journal(sqlite3_file *file, sqlite3_int64 size)
{
    struct journal *journal = (struct journal *)file;
    sqlite3_mutex *turn = take_turn();
    if (size < journal->size)
        journal->size = size;
    if (size == 0) {
        sqlite3_free(journal->bytes);
        journal->bytes = NULL;
        journal->room = 0;
    }
    sqlite3_mutex_leave(turn);
    return SQLITE_OK;
}

static int sync_journal(sqlite3_file *file, int flags)
{
    (void)file, (void)flags;
    return SQLITE_OK;
}

static int size_of_journal(sqlite3_file *file, sqlite3_int64 *size)
{
    *size = ((struct journal *)file)->size;
    return SQLITE_OK;
}

static int control_journal(sqlite3_file *file, int what, void *argument)
{
    (void)file, (void)what, (void)argument;
    return SQLITE_NOTFOUND;
}

static int no_lock(sqlite3_file *file, int kind)
{
    (void)file, (void)kind;
    return SQLITE_OK;
}

static int is_reserved(sqlite3_file *file, int *found)
{
    (void)file;
    *found = 0;
    return SQLITE_OK;
}

static int sector_size(sqlite3_file *file)
{
    (void)file;
    return PAGE;
}

static int characteristics(sqlite3_file *file)
{
    (void)file;
    return 0;
}

static const sqlite3_io_methods methods = {
    .iVersion = 1,
    .xClose = close_journal,
    .xRead = read_journal,
    .xWrite = write_journal,
    .xTruncate = truncate_journal,
    .xSync = sync_journal,
    .xFileSize = size_of_journal,
    .xLock = no_lock,
    .xUnlock = no_lock,
    .xCheckReservedLock = is_reserved,
    .xFileControl = control_journal,
    .xSectorSize = sector_size,
    .xDeviceCharacteristics = characteristics,
};

int open_journal(sqlite3_file *file, int flags, int *found)
{
    struct journal *journal = (struct journal *)file;
    sqlite3_mutex *turn;
    memset(journal, 0, sizeof *journal);
    journal->base.pMethods = &methods;
    turn = take_turn();
    journal->next = open_journals;
    open_journals = journal;
    sqlite3_mutex_leave(turn);
    if (found)
        *found = flags;
    return SQLITE_OK;
}
