/* Declarations that the files of the VFS share. */
#ifndef VFS_H
#define VFS_H

#include <sqlite3ext.h>
SQLITE_EXTENSION_INIT3

#include <famsync.h>
#include <stdbool.h>

#define PAGE 4096

/* The default VFS. It serves all files that aren't in a volume. */
extern sqlite3_vfs *usual;

/* Enters the mutex for the data that connections share, and returns it. The caller leaves it by
   sqlite3_mutex_leave. */
sqlite3_mutex *take_turn(void);

/* A file that SQLite has open: a database in a volume. */
struct database {
    sqlite3_file base;
    const char *path;      /* the volume's path, as SQLite passed it to xOpen */
    struct database *next; /* the next open database */
    famsync *volume;
    unsigned number;       /* the number of the database's file in the volume; the database
                              begins in the second page of this file */
    sqlite3_int64 room;    /* the most bytes that the database can have */
    sqlite3_int64 size;    /* the present size of the database in bytes */
    sqlite3_int64 kept;    /* the size at the end of the last transaction */
    sqlite3_int64 stored;  /* the size in the volume */
    unsigned char **waits; /* for each page its uncommitted bytes in `pages`, or null */
    unsigned char *pages;  /* the uncommitted pages in the order of their first writes, and room
                              for one more */
    size_t *order;         /* the numbers of the uncommitted pages, in the same order */
    unsigned waiting;      /* the number of uncommitted pages */
    unsigned limit;        /* the most pages that may be uncommitted */
    bool torn;             /* a commit failed: this connection can't be used any more */
    int error;             /* errno of that failure */
};

/* A file that SQLite has open: the journal of such a database. */
struct journal {
    sqlite3_file base;
    struct journal *next; /* the next open journal */
    unsigned char *bytes;
    sqlite3_int64 size; /* the number of bytes of the journal */
    sqlite3_int64 room; /* the number of bytes that were allocated */
};

/* database.c */
int open_database(const char *path, sqlite3_file *file, int flags, int *found);
/* Whether a path is the path of an open database followed by `suffix`. */
bool is_beside_a_database(const char *path, const char *suffix);

/* journal.c */
int open_journal(sqlite3_file *file, int flags, int *found);
/* Whether an open journal names the super-journal at a path. */
bool is_named_by_a_journal(const char *path);

/* errors.c */
/* SQLite's code for a code of the library; `other` if SQLite has no code for it. */
int code_for(int code, int other);
int code_for_open(int code);
/* errno after a call of the library that failed with `code`; 0 if this code isn't a failure of the
   system. */
int error_of(int code);
/* Makes a line that explains why a call failed. Keeps this line for xGetLastError, writes it to
   SQLite's log, and returns `code`. */
int fail(int code, int error, const char *format, ...) __attribute__((format(printf, 3, 4)));
void forget_failure(void);
/* The SQL function famsync_error(): the kept line, if this thread had the last failure. */
void answer_last_failure(sqlite3_context *context, int count, sqlite3_value **values);
int get_last_error(sqlite3_vfs *vfs, int count, char *text);

#endif
