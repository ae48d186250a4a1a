/*
 * The ways of bench/peers but those by hand:
 *
 *   famsync        a word in each page of plain memory
 *   foreground     the same without a thread of the library's own: each commit writes home the pages of the one before
 *   write          each page by a call of famsync_write
 *   msync          a shared mapping of a plain file, and msync(2): not atomic
 *   sqlite-wal, sqlite-delete     rows of a page each, updated in one transaction, synchronous=FULL
 *   lmdb           values of a page each, put in one transaction
 */
#include "peers.h"

#include <famsync.h>

#include <fcntl.h>
#include <stdio.h>
#include <string.h>
#include <sys/mman.h>
#include <unistd.h>
#ifdef HAVE_SQLITE
#include <sqlite3.h>
#endif
#ifdef HAVE_LMDB
#include <lmdb.h>
#endif

/* A session with a volume of one file. */
struct session {
    const char *path;
    famsync *handle;
    famsync_memory *memory;
};

static struct session plain = {.path = "famsync.vol"}, alone = {.path = "foreground.vol"},
                      called = {.path = "write.vol"};

static void begin(struct session *session)
{
    struct famsync_options options = {.foreground = session == &alone};
    make_volume_file(session->path);
    must(famsync_open(session->path, &options, &session->handle) == FAMSYNC_OK, "famsync_open");
}

static void end(struct session *session)
{
    must(famsync_memory_close(session->memory) == FAMSYNC_OK, "famsync_memory_close");
    must(famsync_close(session->handle) == FAMSYNC_OK, "famsync_close");
}

static void begin_memory(struct session *session)
{
    begin(session);
    must(famsync_memory_open(session->handle, "a", &session->memory) == FAMSYNC_OK, "famsync_memory_open");
}

static void store_words(unsigned char *at, int number)
{
    for (int i = 0; i < pages.count; i++)
        memcpy(at + page_of(i, number) * PAGE, &number, sizeof number);
}

static void commit_memory(struct session *session, int number)
{
    store_words(famsync_memory_at(session->memory), number);
    must(famsync_msync(session->handle, NULL) == FAMSYNC_OK, "famsync_msync");
}

static void begin_plain(void)
{
    begin_memory(&plain);
}

static void commit_plain(int number)
{
    commit_memory(&plain, number);
}

static void finish_plain(void)
{
    wait_until_home(plain.path);
}

static void end_plain(void)
{
    end(&plain);
}

static void begin_alone(void)
{
    begin_memory(&alone);
}

static void commit_alone(int number)
{
    commit_memory(&alone, number);
}

static void end_alone(void)
{
    end(&alone);
}

static void begin_called(void)
{
    begin(&called);
}

static void commit_called(int number)
{
    static unsigned char page[PAGE];
    memcpy(page, &number, sizeof number);
    for (int i = 0; i < pages.count; i++) {
        uint64_t at = page_of(i, number) * PAGE;
        must(famsync_write(called.handle, 0, at, page, PAGE, NULL) == FAMSYNC_OK, "famsync_write");
    }
    must(famsync_msync(called.handle, NULL) == FAMSYNC_OK, "famsync_msync");
}

static void finish_called(void)
{
    wait_until_home(called.path);
}

static void end_called(void)
{
    end(&called);
}

/* A shared mapping of a plain file. */
static unsigned char *mapped;

static void begin_msync(void)
{
    int file = open("msync", O_RDWR | O_CREAT, 0666);
    must(file >= 0 && ftruncate(file, (off_t)bytes_of_file()) == 0, "the plain file");
    mapped = mmap(NULL, bytes_of_file(), PROT_READ | PROT_WRITE, MAP_SHARED, file, 0);
    must(mapped != MAP_FAILED && close(file) == 0, "mmap");
}

static void commit_msync(int number)
{
    store_words(mapped, number);
    must(msync(mapped, bytes_of_file(), MS_SYNC) == 0, "msync");
}

static void end_msync(void)
{
    munmap(mapped, bytes_of_file());
}

#if defined HAVE_SQLITE || defined HAVE_LMDB
/* Of the same pages each time there are no others. */
static int rows(void)
{
    return pages.apart > 0 ? pages.count : (int)(bytes_of_file() / PAGE);
}

static int row_of(int index, int number)
{
    return pages.apart > 0 ? index : (int)page_of(index, number);
}
#endif

#ifdef HAVE_SQLITE
/* Two databases, of which the first has a WAL. */
static sqlite3 *databases[2];
static sqlite3_stmt *updates[2];

static void run(sqlite3 *database, const char *statement)
{
    must(sqlite3_exec(database, statement, NULL, NULL, NULL) == SQLITE_OK, statement);
}

static void begin_sqlite(int which, const char *path, const char *journal)
{
    static const char update[] = "UPDATE page SET word = ? WHERE id = ?";
    char statement[200];
    sqlite3 *database;
    must(sqlite3_open(path, &database) == SQLITE_OK, path);
    snprintf(statement, sizeof statement, "PRAGMA journal_mode=%s; PRAGMA synchronous=FULL", journal);
    run(database, statement);
    run(database, "CREATE TABLE page (id INTEGER PRIMARY KEY, word INTEGER, rest BLOB)");
    snprintf(statement, sizeof statement,
             "WITH RECURSIVE number(n) AS (SELECT 0 UNION ALL SELECT n + 1 FROM number WHERE n + 1 < %d) "
             "INSERT INTO page SELECT n, 0, randomblob(3900) FROM number",
             rows());
    run(database, statement);
    must(sqlite3_prepare_v2(database, update, -1, &updates[which], NULL) == SQLITE_OK, update);
    databases[which] = database;
}

static void commit_sqlite(int which, int number)
{
    run(databases[which], "BEGIN");
    for (int i = 0; i < pages.count; i++) {
        sqlite3_bind_int(updates[which], 1, number);
        sqlite3_bind_int(updates[which], 2, row_of(i, number));
        must(sqlite3_step(updates[which]) == SQLITE_DONE && sqlite3_reset(updates[which]) == SQLITE_OK, "UPDATE");
    }
    run(databases[which], "COMMIT");
}

static void end_sqlite(int which)
{
    sqlite3_finalize(updates[which]);
    sqlite3_close(databases[which]);
}

static void begin_wal(void)
{
    begin_sqlite(0, "wal.db", "WAL");
}

static void commit_wal(int number)
{
    commit_sqlite(0, number);
}

static void end_wal(void)
{
    end_sqlite(0);
}

static void begin_delete(void)
{
    begin_sqlite(1, "delete.db", "DELETE");
}

static void commit_delete(int number)
{
    commit_sqlite(1, number);
}

static void end_delete(void)
{
    end_sqlite(1);
}
#endif

#ifdef HAVE_LMDB
static MDB_env *environment;
static MDB_dbi table;

static void commit_lmdb(int number)
{
    static char rest[4000];
    MDB_txn *transaction;
    must(mdb_txn_begin(environment, NULL, 0, &transaction) == 0, "mdb_txn_begin");
    for (int i = 0; i < pages.count; i++) {
        int page = row_of(i, number);
        MDB_val key = {sizeof page, &page}, value = {sizeof rest, rest};
        memcpy(rest, &number, sizeof number);
        must(mdb_put(transaction, table, &key, &value, 0) == 0, "mdb_put");
    }
    must(mdb_txn_commit(transaction) == 0, "mdb_txn_commit");
}

static void begin_lmdb(void)
{
    size_t room = (64 << 20) + 8 * bytes_of_file(); /* of addresses: the file becomes as long as it has to */
    MDB_txn *transaction;
    must(mdb_env_create(&environment) == 0 && mdb_env_set_mapsize(environment, room) == 0, "mdb_env");
    must(mdb_env_open(environment, "lmdb", MDB_NOSUBDIR, 0666) == 0, "mdb_env_open");
    must(mdb_txn_begin(environment, NULL, 0, &transaction) == 0, "mdb_txn_begin");
    must(mdb_dbi_open(transaction, NULL, MDB_INTEGERKEY, &table) == 0, "mdb_dbi_open");
    must(mdb_txn_commit(transaction) == 0, "mdb_txn_commit");
}

static void end_lmdb(void)
{
    mdb_env_close(environment);
}
#endif

const struct way ways[] = {
    {"famsync", "famsync.vol", begin_plain, commit_plain, finish_plain, end_plain},
    {"foreground", "foreground.vol", begin_alone, commit_alone, NULL, end_alone},
    {"write", "write.vol", begin_called, commit_called, finish_called, end_called},
    {"msync", NULL, begin_msync, commit_msync, NULL, end_msync},
#ifdef HAVE_SQLITE
    {"sqlite-wal", NULL, begin_wal, commit_wal, NULL, end_wal},
    {"sqlite-delete", NULL, begin_delete, commit_delete, NULL, end_delete},
#endif
#ifdef HAVE_LMDB
    {"lmdb", NULL, begin_lmdb, commit_lmdb, NULL, end_lmdb},
#endif
    {0},
};
