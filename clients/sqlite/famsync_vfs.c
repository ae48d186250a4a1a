/*
 * A VFS for SQLite over libfamsync, in the process that uses SQLite. A database is a file of a volume, and a
 * transaction is one commit of the volume. README.md says how it is used.
 *
 *     .load ./famsync_vfs
 *     .open file:bank.vol?vfs=famsync&file=db
 *
 * Pages that SQLite writes wait in memory, also those that it spills from its cache (database.c). xSync stores them in
 * the volume and commits. So a crash leaves what the last xSync committed, and the journal serves ROLLBACK alone: it is
 * in memory, too, whatever journal_mode is (journal.c).
 *
 * SQLite may drop a journal after an error. So what waits when SQLite gives its lock back is dropped: that rolls the
 * transaction back.
 *
 * Everything else goes to the default VFS: temporary files, and databases that are plain files, as ATTACH 'f' and
 * VACUUM INTO 'f' name them.
 */
#include "vfs.h"
SQLITE_EXTENSION_INIT1

#include <string.h>

sqlite3_vfs *usual;

sqlite3_mutex *take_turn(void)
{
    sqlite3_mutex *turn = sqlite3_mutex_alloc(SQLITE_MUTEX_STATIC_VFS3);
    sqlite3_mutex_enter(turn);
    return turn;
}

/* Whether a name is of a volume by its parameters: SQLite keeps `vfs` among them. */
static bool says_volume(const char *path)
{
    return sqlite3_uri_parameter(path, "vfs") || sqlite3_uri_parameter(path, "file");
}

/* Reads by the default VFS: to open and close the file here would drop SQLite's locks on it. */
static bool begins_as_volume(sqlite3_file *file)
{
    char head[7];
    return file->pMethods->xRead(file, head, sizeof head, 0) == SQLITE_OK && memcmp(head, "FAMSYNC", 7) == 0;
}

/* Opens a database by a name without parameters: by the default VFS, unless it finds a volume there. */
static int open_by_name(const char *path, sqlite3_file *file, int flags, int *found)
{
    int code = usual->xOpen(usual, path, file, flags, found);
    if (code != SQLITE_OK || !begins_as_volume(file))
        return code;
    file->pMethods->xClose(file);
    file->pMethods = NULL;
    return open_database(path, file, flags, found);
}

static int open_file(sqlite3_vfs *vfs, const char *path, sqlite3_file *file, int flags, int *found)
{
    (void)vfs;
    if (!(flags & SQLITE_OPEN_SUPER_JOURNAL)) /* a rollback after a failure reads it */
        forget_failure();
    if (flags & SQLITE_OPEN_MAIN_DB)
        return says_volume(path) ? open_database(path, file, flags, found) : open_by_name(path, file, flags, found);
    if (flags & SQLITE_OPEN_MAIN_JOURNAL && is_beside_a_database(path, "-journal"))
        return open_journal(file, flags, found);
    if (flags & SQLITE_OPEN_WAL && is_beside_a_database(path, "-wal"))
        return SQLITE_CANTOPEN;
    return usual->xOpen(usual, path, file, flags, found);
}

/* Whether a path is that of a journal or a WAL which a database in a volume would have as a file. A file of that name
   has nothing to do with the database. */
static bool is_never_a_file(const char *path)
{
    return is_beside_a_database(path, "-journal") || is_beside_a_database(path, "-wal");
}

/* SQLite removes a super-journal without `sync` when no journal names it any more; with `sync`, to commit. */
static int delete_file(sqlite3_vfs *vfs, const char *path, int sync)
{
    (void)vfs;
    if (is_never_a_file(path) || (!sync && is_named_by_a_journal(path)))
        return SQLITE_OK;
    return usual->xDelete(usual, path, sync);
}

static int access_file(sqlite3_vfs *vfs, const char *path, int how, int *found)
{
    (void)vfs;
    *found = is_named_by_a_journal(path);
    if (*found || is_never_a_file(path))
        return SQLITE_OK;
    return usual->xAccess(usual, path, how, found);
}

static int larger(int one, size_t other)
{
    return one > (int)other ? one : (int)other;
}

/* Registers the VFS unless that was done: each connection that asks for the extension loads it. */
static int register_vfs(void)
{
    static sqlite3_vfs ours;
    if (sqlite3_vfs_find("famsync"))
        return SQLITE_OK;
    usual = sqlite3_vfs_find(NULL);
    if (!usual)
        return SQLITE_ERROR;
    ours = *usual;
    ours.pNext = NULL;
    ours.zName = "famsync";
    ours.xOpen = open_file;
    ours.xDelete = delete_file;
    ours.xAccess = access_file;
    ours.xGetLastError = get_last_error;
    ours.szOsFile = larger(larger(usual->szOsFile, sizeof(struct database)), sizeof(struct journal));
    return sqlite3_vfs_register(&ours, 0);
}

__attribute__((visibility("default"))) int sqlite3_famsyncvfs_init(sqlite3 *connection, char **message,
                                                                   const sqlite3_api_routines *routines)
{
    sqlite3_mutex *turn;
    int code;
    SQLITE_EXTENSION_INIT2(routines);
    (void)message;
    turn = take_turn();
    code = register_vfs();
    sqlite3_mutex_leave(turn);
    /* An opening that fails leaves no connection whose message could say why. */
    if (code == SQLITE_OK)
        code = sqlite3_create_function(connection, "famsync_error", 0, SQLITE_UTF8, NULL, answer_last_failure, NULL,
                                       NULL);
    return code == SQLITE_OK ? SQLITE_OK_LOAD_PERMANENTLY : code;
}
