/*
 * What the VFS refuses, by which code, and that it goes on afterwards.
 *
 *   limits EXTENSION
 */
#include "database.h"

#define SLOTS 20
#define PAGES 60

static char path[200];
static sqlite3 *database;

/* Makes a volume, and names its file `db`. */
static void fresh(unsigned layout, unsigned slots, const char *files)
{
    char mark[100];
    make_volume_of(layout, slots, files);
    snprintf(mark, sizeof mark, "%s.suspect", volume);
    unlink(mark);
    snprintf(path, sizeof path, "file:%s?vfs=famsync&file=db", volume);
}

static void begin(unsigned layout)
{
    char files[60];
    snprintf(files, sizeof files, "other=4096 db=%d", PAGES * 4096);
    fresh(layout, SLOTS, files);
    WANT(open_database(path, &database) == SQLITE_OK);
    must(database, "PRAGMA journal_mode=MEMORY; CREATE TABLE row (id INTEGER PRIMARY KEY, bytes BLOB)");
}

static void end(void)
{
    WANT(sqlite3_close(database) == SQLITE_OK);
}

static void reopen(void)
{
    end();
    WANT(open_database(path, &database) == SQLITE_OK);
    must(database, "PRAGMA journal_mode=MEMORY");
}

/* Whether a path is refused by a code, and the volume isn't in use afterwards. */
static void want_refused(const char *refused, int code)
{
    sqlite3 *none;
    famsync *handle;
    struct famsync_options trusted = {.trust = 1};
    int found = open_database(refused, &none);
    if (found != code)
        fprintf(stderr, "%s: %d, and should be %d\n", refused, found, code);
    WANT(found == code);
    WANT(famsync_open(volume, &trusted, &handle) != FAMSYNC_INUSE);
    WANT_CODE(famsync_close(handle), FAMSYNC_OK);
}

/* Writes over the beginning of the file `db`, the volume's only one. */
static void spoil(off_t at, const void *bytes, size_t count)
{
    int file = open(volume, O_WRONLY);
    WANT(file >= 0 && pwrite(file, bytes, count, at) == (ssize_t)count && close(file) == 0);
}

/* Volumes with journals, which the library doesn't open. */
static void refuses_other_layouts(void)
{
    sqlite3_vfs *vfs = sqlite3_vfs_find("famsync");
    char magic[20], said[FAMSYNC_MESSAGE_SIZE];
    fresh(FIRST_LAYOUT, SLOTS, "db=40960");
    for (unsigned layout = 1; layout < FIRST_LAYOUT; layout++) {
        snprintf(magic, sizeof magic, "FAMSYNC%u", layout);
        spoil(0, magic, 8);
        want_refused(path, SQLITE_CANTOPEN);
        WANT(vfs->xGetLastError(vfs, sizeof said, said) == 0);
        WANT(strstr(said, "copy it with `famsync migrate --layout 5 OLD NEW`"));
        int file = open(volume, O_RDONLY);
        WANT(file >= 0 && pread(file, said, 8, 0) == 8 && memcmp(said, magic, 8) == 0 && close(file) == 0);
    }
}

static void refuses_volumes(void)
{
    char missing[220], mark[100];
    off_t home = (off_t)(first_home(SLOTS) + 1) * 4096;
    fresh(FIRST_LAYOUT, SLOTS, "db=40960");
    snprintf(missing, sizeof missing, "file:%s/none?vfs=famsync", folder);
    want_refused(missing, SQLITE_CANTOPEN);
    snprintf(missing, sizeof missing, "file:%s?vfs=famsync&file=none", volume);
    want_refused(missing, SQLITE_CANTOPEN);
    spoil(home, "SQLite format 3", 15);
    want_refused(path, SQLITE_NOTADB);
    spoil(home, "famsync database\0\0\0\0\0\0\x90\x01", 24); /* a byte more than nine pages */
    want_refused(path, SQLITE_NOTADB);
    spoil(8, "\0\0\0\0", 4);
    want_refused(path, SQLITE_CORRUPT);
    spoil(0, "FAMSYNC9", 8);
    want_refused(path, SQLITE_NOTADB);
    fresh(FIRST_LAYOUT, SLOTS, "db=8191");
    want_refused(path, SQLITE_CANTOPEN);
    fresh(FIRST_LAYOUT, 1, "db=40960");
    want_refused(path, SQLITE_CANTOPEN);
    fresh(FIRST_LAYOUT, SLOTS, "db=40960");
    snprintf(mark, sizeof mark, "%s.suspect", volume);
    WANT(close(open(mark, O_WRONLY | O_CREAT, 0600)) == 0);
    want_refused(path, SQLITE_IOERR);
}

static void refuses_what_is_in_use(void)
{
    sqlite3 *other;
    famsync *handle;
    begin(FIRST_LAYOUT);
    WANT(open_database(path, &other) == SQLITE_BUSY);
    WANT_CODE(famsync_open(volume, NULL, &handle), FAMSYNC_INUSE);
    must(database, "INSERT INTO row VALUES (1, 'it goes on')");
    end();
    WANT_CODE(famsync_open(volume, NULL, &handle), FAMSYNC_OK);
    WANT(open_database(path, &other) == SQLITE_BUSY);
    WANT_CODE(famsync_close(handle), FAMSYNC_OK);
    WANT(open_database(path, &database) == SQLITE_OK && answers(database, "SELECT bytes FROM row", "it goes on"));
    end();
}

/* Bytes that take a page of their own, all of them this letter. */
#define LETTERS(letter) "replace(hex(zeroblob(1950)), '0', '" letter "')"

static int store_rows(int first, int count)
{
    char statement[300];
    snprintf(statement, sizeof statement,
             "WITH RECURSIVE number(n) AS (SELECT %d UNION ALL SELECT n + 1 FROM number WHERE n < %d) "
             "INSERT INTO row SELECT n, " LETTERS("x") " FROM number",
             first, first + count - 1);
    return run(database, statement);
}

static int change_rows(int count)
{
    char statement[200];
    snprintf(statement, sizeof statement, "UPDATE row SET bytes = replace(bytes, 'x', 'y') WHERE id <= %d", count);
    return run(database, statement);
}

/* How many of the rows have this letter. */
static bool have(const char *letter, int rows)
{
    char statement[100], wanted[20];
    snprintf(statement, sizeof statement, "SELECT count(*) FROM row WHERE bytes LIKE '%s%%'", letter);
    snprintf(wanted, sizeof wanted, "%d", rows);
    return answers(database, statement, wanted) && answers(database, "PRAGMA integrity_check", "ok");
}

/* A transaction may have a page less than a commit, of which one is the database's first. */
static void refuses_large_transactions(unsigned layout, const char *cache)
{
    int most = SLOTS - 3; /* less the lengths, and the database's first page and the one with the size */
    begin(layout);
    must(database, cache);
    for (int first = 1; first < 40; first += 10)
        WANT(store_rows(first, 10) == SQLITE_OK);
    WANT(change_rows(most + 1) == SQLITE_FULL && sqlite3_get_autocommit(database) && have("y", 0) && have("x", 40));
    WANT(change_rows(most) == SQLITE_OK && have("y", most));
    must(database, "BEGIN; UPDATE row SET bytes = replace(bytes, 'x', 'z') WHERE id > 35");
    WANT(change_rows(40) == SQLITE_FULL || run(database, "COMMIT") == SQLITE_FULL);
    if (!sqlite3_get_autocommit(database))
        must(database, "ROLLBACK");
    WANT(have("y", most) && have("x", 40 - most));
    reopen();
    WANT(have("y", most) && have("x", 40 - most));
    must(database, "UPDATE row SET bytes = replace(bytes, 'x', 'z') WHERE id > 35");
    end();
}

/* A transaction may change many pages. */
static void takes_large_transactions(void)
{
    fresh(FIRST_LAYOUT, 1602, "db=8192000");
    WANT(open_database(path, &database) == SQLITE_OK);
    must(database, "PRAGMA journal_mode=MEMORY; CREATE TABLE row (id INTEGER PRIMARY KEY, bytes BLOB)");
    WANT(store_rows(1, 1500) == SQLITE_OK && have("x", 1500));
    WANT(change_rows(1500) == SQLITE_OK && have("y", 1500));
    reopen();
    WANT(have("y", 1500));
    WANT(store_rows(1501, 1700) == SQLITE_FULL && have("y", 1500) && have("x", 0));
    end();
}

/* A large table, and few pages of a commit. To overwrite all that it deletes is too much; to give it back isn't. */
static void deletes_a_large_table(unsigned layout)
{
    fresh(layout, SLOTS, "db=1638400");
    WANT(open_database(path, &database) == SQLITE_OK);
    must(database, "CREATE TABLE row (id INTEGER PRIMARY KEY, bytes BLOB)");
    for (int first = 1; first < 100; first += 10)
        WANT(store_rows(first, 10) == SQLITE_OK);
    must(database, "PRAGMA secure_delete=ON");
    WANT(run(database, "DELETE FROM row") == SQLITE_FULL && have("x", 100));
    WANT(run(database, "DROP TABLE row") == SQLITE_FULL && have("x", 100));
    must(database, "DELETE FROM row WHERE id > 90");
    reopen();
    WANT(have("x", 90));
    must(database, "PRAGMA secure_delete=OFF; DELETE FROM row WHERE id > 20; VACUUM");
    WANT(have("x", 20) && answers(database, "PRAGMA page_count", "22"));
    must(database, "DELETE FROM row");
    WANT(store_rows(1, 10) == SQLITE_OK);
    must(database, "DROP TABLE row; VACUUM");
    WANT(answers(database, "PRAGMA page_count", "1"));
    end();
}

/* A database is as large as its file, less one page. */
static void refuses_a_large_database(void)
{
    int rows = 0;
    char count[20];
    begin(FIRST_LAYOUT);
    while (store_rows(rows + 1, 1) == SQLITE_OK)
        rows++;
    snprintf(count, sizeof count, "%d", rows);
    WANT(rows == PAGES - 3); /* but the one with the size, the database's first, and the table's first */
    WANT(sqlite3_errcode(database) == SQLITE_FULL && answers(database, "SELECT count(*) FROM row", count));
    must(database, "DELETE FROM row WHERE id = 7");
    WANT(store_rows(7, 1) == SQLITE_OK && answers(database, "PRAGMA integrity_check", "ok"));
    reopen();
    WANT(answers(database, "SELECT count(*) FROM row", count) && answers(database, "PRAGMA integrity_check", "ok"));
    end();
}

/* Whether the disk has no room for further blocks of a volume. */
static bool is_full;

int fallocate(int file, int mode, off_t offset, off_t length)
{
    if (!is_full)
        return (int)syscall(SYS_fallocate, file, mode, offset, length);
    errno = ENOSPC;
    return -1;
}

/* A full disk refuses transactions, and ends nothing. */
static void goes_on_after_a_full_disk(unsigned layout, const char *journal)
{
    sqlite3_vfs *vfs = sqlite3_vfs_find("famsync");
    char said[300];
    fresh(layout, SLOTS, "other=4096 db=245760");
    make_hole_of(layout, SLOTS, "other=4096 db=245760");
    WANT(open_database(path, &database) == SQLITE_OK);
    must(database, journal);
    must(database, "CREATE TABLE row (id INTEGER PRIMARY KEY, bytes BLOB)");
    WANT(store_rows(1, 5) == SQLITE_OK && have("x", 5));
    for (int round = 0; round < 3; round++) {
        is_full = true;
        WANT(store_rows(6, 8) == SQLITE_FULL && sqlite3_get_autocommit(database));
        WANT(vfs->xGetLastError(vfs, sizeof said, said) == ENOSPC && strstr(said, "the disk is full"));
        WANT(have("x", 5));
        must(database, "BEGIN; DELETE FROM row WHERE id = 2; INSERT INTO row SELECT id + 20, bytes FROM row");
        WANT(run(database, "COMMIT") == SQLITE_FULL && sqlite3_get_autocommit(database) && have("x", 5));
        is_full = false;
    }
    WANT(store_rows(6, 8) == SQLITE_OK && have("x", 13));
    end();
    WANT(open_database(path, &database) == SQLITE_OK && have("x", 13));
    end();
}

static void answers_pragmas(void)
{
    static const char *const taken[][2] = {
        {"PRAGMA journal_mode=WAL", "memory"}, /* it stays what it was */
        {"PRAGMA journal_mode=DELETE", "delete"},
        {"PRAGMA journal_mode=WAL", "delete"},
        {"PRAGMA journal_mode=TRUNCATE", "truncate"},
        {"PRAGMA journal_mode=PERSIST", "persist"},
        {"PRAGMA journal_mode='off'", "off"},
        {"PRAGMA journal_mode=WAL", "off"},
        {"PRAGMA journal_mode=MEMORY", "memory"},
        {"PRAGMA locking_mode=EXCLUSIVE", "exclusive"},
        {"PRAGMA journal_mode=WAL", "memory"},
        {"PRAGMA journal_mode=DELETE", "delete"},
        {"PRAGMA main.journal_mode=w", "delete"},
        {"PRAGMA locking_mode", "exclusive"},
        {"PRAGMA locking_mode=NORMAL", "normal"},
        {"PRAGMA journal_mode='wal'", "delete"},
        {"PRAGMA synchronous=OFF; PRAGMA synchronous", "0"},
        {"PRAGMA synchronous=NORMAL; PRAGMA synchronous", "1"},
        {"PRAGMA synchronous=FULL; PRAGMA synchronous", "2"},
        {"PRAGMA synchronous=EXTRA; PRAGMA synchronous", "3"},
        {"PRAGMA synchronous=on; PRAGMA synchronous", "1"},
        {"PRAGMA mmap_size=1000000", ""},
        {"PRAGMA page_size", "4096"},
    };
    char count[20];
    begin(FIRST_LAYOUT);
    for (size_t i = 0; i < sizeof taken / sizeof taken[0]; i++) {
        must(database, "INSERT INTO row VALUES (NULL, 'one more')");
        WANT(answers(database, taken[i][0], taken[i][1]));
    }
    snprintf(count, sizeof count, "%zu", sizeof taken / sizeof taken[0]);
    reopen();
    WANT(answers(database, "SELECT count(*) FROM row", count) && answers(database, "PRAGMA integrity_check", "ok"));
    end();
}

/* Without a name it is the first file; an extension that is loaded again has its VFS still. */
static void names(const char *extension)
{
    char first[200];
    fresh(FIRST_LAYOUT, SLOTS, "db=40960 other=40960");
    load_vfs(extension);
    WANT(sqlite3_vfs_find("unix") && sqlite3_vfs_find("unix-none") && sqlite3_vfs_find("famsync"));
    snprintf(first, sizeof first, "file:%s?vfs=famsync&foreground=1", volume);
    WANT(open_database(first, &database) == SQLITE_OK);
    must(database, "CREATE TABLE first (n)");
    end();
    WANT(open_database(path, &database) == SQLITE_OK);
    WANT(answers(database, "SELECT name FROM sqlite_schema", "first"));
    end();
    snprintf(first, sizeof first, "file:%s?vfs=famsync&file=other", volume);
    WANT(open_database(first, &database) == SQLITE_OK && answers(database, "SELECT count(*) FROM sqlite_schema", "0"));
    end();
}

int main(int count, char **words)
{
    WANT(count == 2);
    load_vfs(words[1]);
    names(words[1]);
    refuses_volumes();
    refuses_other_layouts();
    refuses_what_is_in_use();
    for (unsigned layout = FIRST_LAYOUT; layout <= LAYOUTS; layout++) {
        refuses_large_transactions(layout, "PRAGMA cache_size=2000");
        refuses_large_transactions(layout, "PRAGMA cache_size=5");
        deletes_a_large_table(layout);
        goes_on_after_a_full_disk(layout, "PRAGMA journal_mode=MEMORY");
        goes_on_after_a_full_disk(layout, "PRAGMA journal_mode=DELETE; PRAGMA cache_size=5");
    }
    takes_large_transactions();
    refuses_a_large_database();
    answers_pragmas();
    printf("clients/sqlite: limits: as they should be\n");
    return 0;
}
