/*
 * Two databases in one volume, with each journal_mode: a transaction of one that is killed changes neither of them, a
 * rollback changes nothing, and no file lies beside the volume. Databases in two volumes, or a plain one beside one in
 * a volume: a transaction over both whose commit fails changes neither.
 *
 *   journals EXTENSION
 */
#include "database.h"

#include <dirent.h>

#define MAKE_ROWS                                                                                                      \
    "CREATE TABLE row (id INTEGER PRIMARY KEY, bytes BLOB); WITH RECURSIVE number(n) AS (SELECT 1 UNION ALL SELECT "   \
    "n + 1 FROM number WHERE n < 30) INSERT INTO row SELECT n, zeroblob(3000) FROM number"

static const char *const modes[] = {"DELETE", "TRUNCATE", "PERSIST", "MEMORY"};
static const char *const names[] = {"one", "two"};

/* Opens one of the databases, with a cache that holds fewer pages than a transaction changes. */
static sqlite3 *opened_database(const char *name, const char *mode)
{
    sqlite3 *database;
    char path[200], statement[100], found[300];
    snprintf(path, sizeof path, "file:%s?vfs=famsync&file=%s", volume, name);
    WANT(open_database(path, &database) == SQLITE_OK);
    snprintf(statement, sizeof statement, "PRAGMA cache_size=5; PRAGMA journal_mode=%s", mode);
    WANT(ask_for(database, statement, found) == SQLITE_OK && sqlite3_stricmp(found, mode) == 0);
    return database;
}

static void close_database(sqlite3 *database)
{
    WANT(sqlite3_close(database) == SQLITE_OK);
}

static void make_databases(unsigned layout, const char *mode)
{
    make_volume_of(layout, 64, "one=819200 two=819200");
    for (unsigned i = 0; i < 2; i++) {
        sqlite3 *database = opened_database(names[i], mode);
        must(database, MAKE_ROWS);
        close_database(database);
    }
}

static void want_whole(const char *name, const char *mode, const char *changed)
{
    sqlite3 *database = opened_database(name, mode);
    WANT(answers(database, "PRAGMA integrity_check", "ok"));
    WANT(answers(database, "SELECT count(*) FROM row", "30"));
    WANT(answers(database, "SELECT count(*) FROM row WHERE bytes = 'changed'", changed));
    close_database(database);
}

/* Nothing lies in the volume's folder but what the test put there. */
static void want_alone(int files)
{
    DIR *entries = opendir(folder);
    int found = -2; /* the folder itself and the one above it */
    WANT(entries);
    while (readdir(entries))
        found++;
    WANT(closedir(entries) == 0 && found == files);
}

/* Changes rows, which are more pages than the cache holds, and looks beside the volume meanwhile. */
static void change_rows(sqlite3 *database)
{
    must(database, "BEGIN; UPDATE row SET bytes = 'changed' WHERE id <= 25");
    want_alone(1);
}

/* The next who opens a database in the volume is another one. */
static void survives_a_kill(unsigned layout, const char *mode)
{
    int status;
    pid_t child;
    make_databases(layout, mode);
    child = fork();
    if (child == 0) {
        change_rows(opened_database("one", mode));
        raise(SIGKILL);
    }
    WANT(waitpid(child, &status, 0) == child && WIFSIGNALED(status) && WTERMSIG(status) == SIGKILL);
    want_alone(1);
    want_whole("two", mode, "0");
    want_whole("one", mode, "0");
}

static void rolls_back(unsigned layout, const char *mode)
{
    sqlite3 *database;
    make_databases(layout, mode);
    database = opened_database("one", mode);
    change_rows(database);
    must(database, "ROLLBACK");
    WANT(answers(database, "SELECT count(*) FROM row WHERE bytes = 'changed'", "0"));
    must(database, "BEGIN; UPDATE row SET bytes = 'changed' WHERE id = 1; SAVEPOINT here; DELETE FROM row; "
                   "ROLLBACK TO here; COMMIT");
    WANT(answers(database, "SELECT count(*) FROM row WHERE bytes = 'changed'", "1"));
    change_rows(database);
    close_database(database); /* in the midst of a transaction */
    want_whole("one", mode, "1");
    want_whole("two", mode, "0");
    want_alone(1);
}

/* Moves the volume aside, and makes the next one. */
static void make_next_volume(unsigned layout, char first[80])
{
    snprintf(first, 80, "%s/first.img", folder);
    WANT(rename(volume, first) == 0);
    make_volume_of(layout, 20, "other=819200");
}

/* Attaches a database with more rows than a transaction on it may change. */
static void attach_other(sqlite3 *to, const char *path, const char *mode)
{
    char statement[400];
    snprintf(statement, sizeof statement,
             "ATTACH '%s' AS other; PRAGMA other.journal_mode=%s; CREATE TABLE other.row (id INTEGER PRIMARY KEY, "
             "bytes BLOB)",
             path, mode);
    must(to, statement);
    for (int i = 0; i < 4; i++)
        must(to, "INSERT INTO other.row SELECT NULL, hex(zeroblob(1500)) FROM main.row LIMIT 10");
}

static void want_unchanged(sqlite3 *in)
{
    WANT(answers(in, "PRAGMA integrity_check", "ok"));
    WANT(answers(in, "SELECT count(*) FROM main.row WHERE bytes = 'changed'", "0"));
    WANT(answers(in, "SELECT count(*) FROM other.row WHERE bytes LIKE '%y'", "0"));
}

/* A transaction changes two databases. The second one's part is too large for a commit, and the first one's has been
   committed by then. */
static void rolls_back_both(sqlite3 *in, const char *path, const char *mode, int files)
{
    char statement[300];
    attach_other(in, path, mode);
    must(in, "BEGIN; UPDATE main.row SET bytes = 'changed' WHERE id <= 5; UPDATE other.row SET bytes = bytes || 'y'");
    WANT(run(in, "COMMIT") == SQLITE_FULL && sqlite3_get_autocommit(in));
    want_alone(files);
    want_unchanged(in);
    snprintf(statement, sizeof statement, "DETACH other; ATTACH '%s' AS other", path);
    must(in, statement);
    want_unchanged(in);
    must(in, "UPDATE main.row SET bytes = 'changed' WHERE id = 1; UPDATE other.row SET bytes = 'changed' WHERE id = 1");
    close_database(in);
}

static void rolls_back_two_volumes(unsigned layout, const char *mode)
{
    char first[80], path[200], statement[100];
    sqlite3 *database;
    make_databases(layout, mode);
    make_next_volume(layout, first);
    snprintf(path, sizeof path, "file:%s?vfs=famsync&file=one", first);
    WANT(open_database(path, &database) == SQLITE_OK);
    snprintf(statement, sizeof statement, "PRAGMA journal_mode=%s", mode);
    must(database, statement);
    snprintf(path, sizeof path, "file:%s?vfs=famsync&file=other", volume);
    rolls_back_both(database, path, mode, 2);
    WANT(unlink(first) == 0);
}

/* The plain database is one of the default VFS, which knows nothing of a journal in memory. */
static void rolls_back_a_volume_and_a_file(unsigned layout, const char *mode)
{
    char plain[80], path[200], statement[100];
    sqlite3 *database;
    make_databases(layout, mode);
    make_next_volume(layout, plain);
    WANT(unlink(plain) == 0);
    WANT(open_database(plain, &database) == SQLITE_OK);
    snprintf(statement, sizeof statement, "PRAGMA journal_mode=%s", mode);
    must(database, statement);
    must(database, MAKE_ROWS);
    snprintf(path, sizeof path, "file:%s?vfs=famsync&file=other", volume);
    rolls_back_both(database, path, mode, 2 + (strcmp(mode, "PERSIST") == 0 || strcmp(mode, "TRUNCATE") == 0));
    WANT(unlink(plain) == 0);
    strcat(plain, "-journal");
    unlink(plain);
}

static void leave_file(const char *suffix)
{
    char path[100];
    int file;
    snprintf(path, sizeof path, "%s%s", volume, suffix);
    file = open(path, O_WRONLY | O_CREAT | O_TRUNC, 0600);
    WANT(file >= 0 && write(file, "somebody's", 10) == 10 && close(file) == 0);
}

static void remove_file(const char *suffix)
{
    char path[100], found[20];
    int file;
    snprintf(path, sizeof path, "%s%s", volume, suffix);
    file = open(path, O_RDONLY);
    WANT(file >= 0 && read(file, found, sizeof found) == 10 && memcmp(found, "somebody's", 10) == 0);
    WANT(close(file) == 0 && unlink(path) == 0);
}

/* A file that happens to have the name of a journal or of a WAL is neither read nor changed. */
static void leaves_files_alone(const char *mode)
{
    sqlite3 *database;
    make_databases(FIRST_LAYOUT, mode);
    leave_file("-journal");
    leave_file("-wal");
    database = opened_database("one", mode);
    must(database, "UPDATE row SET bytes = 'changed' WHERE id <= 25");
    close_database(database);
    want_whole("one", mode, "25");
    want_alone(3);
    remove_file("-journal");
    remove_file("-wal");
}

/* Attached to a database of another VFS, which sets all modes of the connection: then the VFS refuses the WAL's file.
 */
static void makes_no_wal(void)
{
    sqlite3 *database;
    char statement[200];
    make_databases(LAYOUTS, "DELETE");
    WANT(open_database(":memory:", &database) == SQLITE_OK);
    snprintf(statement, sizeof statement, "PRAGMA locking_mode=EXCLUSIVE; ATTACH 'file:%s?vfs=famsync&file=one' AS one",
             volume);
    must(database, statement);
    WANT(answers(database, "PRAGMA one.journal_mode=WAL", "delete"));
    must(database, "UPDATE one.row SET bytes = 'changed' WHERE id = 1; PRAGMA journal_mode=WAL");
    WANT(run(database, "UPDATE one.row SET bytes = 'changed' WHERE id = 2") == SQLITE_CANTOPEN);
    want_alone(1);
    close_database(database);
    want_whole("one", "DELETE", "1");
}

int main(int count, char **words)
{
    WANT(count == 2);
    load_vfs(words[1]);
    for (size_t i = 0; i < sizeof modes / sizeof modes[0]; i++) {
        for (unsigned layout = FIRST_LAYOUT; layout <= LAYOUTS; layout++) {
            survives_a_kill(layout, modes[i]);
            rolls_back(layout, modes[i]);
            rolls_back_two_volumes(layout, modes[i]);
            rolls_back_a_volume_and_a_file(layout, modes[i]);
        }
        leaves_files_alone(modes[i]);
    }
    makes_no_wal();
    printf("clients/sqlite: journals: as they should be\n");
    return 0;
}
