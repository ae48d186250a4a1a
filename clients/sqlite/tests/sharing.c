/*
 * Connections to one volume: those that wait for it, and those that only read.
 *
 *   sharing EXTENSION
 */
#include "database.h"

#include <time.h>

static sqlite3 *database;
static char path[200];

static const char rows[] = "CREATE TABLE row (id INTEGER PRIMARY KEY, bytes BLOB); WITH RECURSIVE number(n) AS (SELECT "
                           "1 UNION ALL SELECT n + 1 FROM number WHERE n < 40) INSERT INTO row SELECT n, "
                           "zeroblob(3000) FROM number";

/* Makes a volume with a database that has 40 rows, and opens it. */
static void begin(unsigned layout)
{
    make_volume_of(layout, 200, "db=4096000 other=4096000");
    snprintf(path, sizeof path, "file:%s?vfs=famsync&file=db", volume);
    WANT(open_database(path, &database) == SQLITE_OK);
    must(database, rows);
}

static void end(void)
{
    WANT(sqlite3_close(database) == SQLITE_OK);
}

static bool has_rows(sqlite3 *in, const char *count)
{
    return answers(in, "PRAGMA integrity_check", "ok") && answers(in, "SELECT count(*) FROM row", count);
}

/* Opens a database with parameters after those of its path. */
static int open_with(const char *parameters, sqlite3 **opened)
{
    char name[300];
    snprintf(name, sizeof name, "%s%s", path, parameters);
    return open_database(name, opened);
}

static double seconds(void)
{
    struct timespec now;
    clock_gettime(CLOCK_MONOTONIC, &now);
    return (double)now.tv_sec + (double)now.tv_nsec / 1e9;
}

static void waits(void)
{
    sqlite3 *none;
    int status;
    pid_t child;
    int ready[2];
    double began;
    begin(FIRST_LAYOUT);
    began = seconds();
    WANT(open_with("&wait=200", &none) == SQLITE_BUSY && seconds() - began > 0.19);
    WANT(open_with("&wait=-1", &none) == SQLITE_BUSY);
    end();
    WANT(pipe(ready) == 0);
    child = fork();
    if (child == 0) {
        WANT(open_database(path, &database) == SQLITE_OK && write(ready[1], "", 1) == 1);
        usleep(300000);
        end();
        _exit(0);
    }
    WANT(read(ready[0], &status, 1) == 1);
    WANT(open_with("&wait=20000", &database) == SQLITE_OK && has_rows(database, "40"));
    WANT(waitpid(child, &status, 0) == child && status == 0);
    end();
    close(ready[0]);
    close(ready[1]);
}

/* Any number of connections that only read have a volume; one that writes is refused meanwhile. */
static void reads_only(unsigned layout)
{
    sqlite3 *one, *two, *none;
    begin(layout);
    WANT(open_with("&mode=ro", &none) == SQLITE_BUSY);
    end();
    WANT(open_with("&mode=ro", &one) == SQLITE_OK && has_rows(one, "40"));
    WANT(sqlite3_open_v2(path, &two, SQLITE_OPEN_READONLY | SQLITE_OPEN_URI, NULL) == SQLITE_OK && has_rows(two, "40"));
    WANT((run(one, "DELETE FROM row") & 0xff) == SQLITE_READONLY && has_rows(one, "40"));
    WANT(open_database(path, &none) == SQLITE_BUSY);
    WANT(sqlite3_close(one) == SQLITE_OK);
    WANT(open_database(path, &none) == SQLITE_BUSY);
    WANT(sqlite3_close(two) == SQLITE_OK);
    WANT(open_database(path, &database) == SQLITE_OK);
    must(database, "DELETE FROM row WHERE id = 7");
    end();
}

/* What a kill left of a commit is written by the next who opens the volume for writing. */
static void reads_nothing_that_a_kill_left(unsigned layout)
{
    sqlite3 *none;
    int status;
    pid_t child;
    begin(layout);
    end();
    child = fork();
    if (child == 0) {
        WANT(open_with("&foreground=1", &database) == SQLITE_OK);
        must(database, "DELETE FROM row WHERE id = 7");
        raise(SIGKILL);
    }
    WANT(waitpid(child, &status, 0) == child && WIFSIGNALED(status) && WTERMSIG(status) == SIGKILL);
    WANT(open_with("&mode=ro", &none) == SQLITE_READONLY);
    WANT(open_database(path, &database) == SQLITE_OK && has_rows(database, "39"));
    end();
    WANT(open_with("&mode=ro", &database) == SQLITE_OK && has_rows(database, "39"));
    end();
}

int main(int count, char **words)
{
    WANT(count == 2);
    load_vfs(words[1]);
    waits();
    for (unsigned layout = FIRST_LAYOUT; layout <= LAYOUTS; layout++) {
        reads_only(layout);
        reads_nothing_that_a_kill_left(layout);
    }
    printf("clients/sqlite: sharing: as it should be\n");
    return 0;
}
