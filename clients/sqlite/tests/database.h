/* What the tests of the VFS share, over test.h of the C library: databases, and what SQLite answers. */
#ifndef DATABASE_H
#define DATABASE_H

#include "test.h"

#include <sqlite3.h>

/* Loads the extension that has the VFS; it stays for all connections of this process. */
static inline void load_vfs(const char *extension)
{
    sqlite3 *first;
    char *message = NULL;
    if (sqlite3_open(":memory:", &first) != SQLITE_OK || sqlite3_enable_load_extension(first, 1) != SQLITE_OK ||
        sqlite3_load_extension(first, extension, NULL, &message) != SQLITE_OK) {
        fprintf(stderr, "%s: %s\n", extension, message ? message : "can't be loaded");
        exit(2);
    }
    sqlite3_close(first);
}

/* Opens a database, and answers SQLite's code; `*database` is a null pointer where it isn't SQLITE_OK. */
static inline int open_database(const char *path, sqlite3 **database)
{
    int flags = SQLITE_OPEN_READWRITE | SQLITE_OPEN_CREATE | SQLITE_OPEN_URI;
    int code = sqlite3_open_v2(path, database, flags, NULL);
    if (code == SQLITE_OK) {
        sqlite3_extended_result_codes(*database, 1);
        return code;
    }
    sqlite3_close(*database);
    *database = NULL;
    return code;
}

static inline int keep_answer(void *answer, int columns, char **values, char **names)
{
    (void)names;
    snprintf(answer, 300, "%s", columns > 0 && values[columns - 1] ? values[columns - 1] : "NULL");
    return 0;
}

/* Runs statements; `answer` gets the last value, and has room for 300 bytes. */
static inline int ask_for(sqlite3 *database, const char *statements, char *answer)
{
    answer[0] = 0;
    return sqlite3_exec(database, statements, keep_answer, answer, NULL);
}

static inline int run(sqlite3 *database, const char *statements)
{
    char answer[300];
    return ask_for(database, statements, answer);
}

static inline void must(sqlite3 *database, const char *statements)
{
    int code = run(database, statements);
    if (code == SQLITE_OK)
        return;
    fprintf(stderr, "%s: %s (%d)\n", statements, sqlite3_errmsg(database), code);
    exit(1);
}

/* Whether the last value that statements give is this one. */
static inline bool answers(sqlite3 *database, const char *statements, const char *wanted)
{
    char answer[300];
    int code = ask_for(database, statements, answer);
    if (code == SQLITE_OK && strcmp(answer, wanted) == 0)
        return true;
    fprintf(stderr, "%s: \"%s\" (%d), and should be \"%s\"\n", statements, answer, code, wanted);
    return false;
}

/* The size of a database's file, as SQLite finds it. */
static inline sqlite3_int64 size_of(sqlite3 *database, const char *schema)
{
    sqlite3_file *file;
    sqlite3_int64 size;
    WANT(sqlite3_file_control(database, schema, SQLITE_FCNTL_FILE_POINTER, &file) == SQLITE_OK);
    WANT(file->pMethods->xFileSize(file, &size) == SQLITE_OK);
    return size;
}

#endif
