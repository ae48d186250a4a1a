/* SQLite's codes for those of the library, and why a call failed last. */
#include "vfs.h"

#include <errno.h>
#include <pthread.h>
#include <stdarg.h>
#include <stdio.h>
#include <string.h>

/* Only the last thread that failed has a line. One line per thread would need memory for each, and the process would
   end where the system refuses that. */
static struct {
    bool known;
    pthread_t thread;
    int code;  /* SQLite's */
    int error; /* errno, 0 for a failure that isn't the system's */
    char text[FAMSYNC_MESSAGE_SIZE];
} last;

int code_for(int code, int other)
{
    switch (code) {
    case FAMSYNC_OK:
        return SQLITE_OK;
    case FAMSYNC_NOFRAME:
    case FAMSYNC_NOSPACE:
        return SQLITE_FULL;
    case FAMSYNC_NOMEMORY:
        return SQLITE_NOMEM;
    case FAMSYNC_READONLY:
        return SQLITE_READONLY;
    default:
        return other;
    }
}

int code_for_open(int code)
{
    switch (code) {
    case FAMSYNC_INUSE:
        return SQLITE_BUSY;
    case FAMSYNC_SUSPECT:
    case FAMSYNC_UNMARKED:
        return SQLITE_IOERR_FSYNC;
    case FAMSYNC_NEEDSOPENING:
        return SQLITE_READONLY_RECOVERY;
    case FAMSYNC_NOTAVOLUME:
        return SQLITE_NOTADB;
    case FAMSYNC_DAMAGED:
        return SQLITE_CORRUPT;
    case FAMSYNC_LAYOUT:
        return SQLITE_CANTOPEN;
    case FAMSYNC_DEVICE:
        return SQLITE_IOERR;
    default:
        return code_for(code, SQLITE_CANTOPEN);
    }
}

int error_of(int code)
{
    return code == FAMSYNC_SYSTEM || code == FAMSYNC_NOSPACE || code == FAMSYNC_DEVICE || code == FAMSYNC_UNMARKED
               ? errno
               : 0;
}

int fail(int code, int error, const char *format, ...)
{
    char text[FAMSYNC_MESSAGE_SIZE];
    sqlite3_mutex *turn;
    va_list words;
    va_start(words, format);
    vsnprintf(text, sizeof text, format, words);
    va_end(words);
    turn = take_turn();
    last.known = true;
    last.thread = pthread_self();
    last.code = code;
    last.error = error;
    strcpy(last.text, text);
    sqlite3_mutex_leave(turn);
    sqlite3_log(code, "famsync: %s", text);
    return code;
}

/* Whether there is a line of this thread; the caller has the mutex. */
static bool is_mine(void)
{
    return last.known && pthread_equal(last.thread, pthread_self());
}

void forget_failure(void)
{
    sqlite3_mutex *turn = take_turn();
    if (is_mine())
        last.known = false;
    sqlite3_mutex_leave(turn);
}

void answer_last_failure(sqlite3_context *context, int count, sqlite3_value **values)
{
    sqlite3_mutex *turn = take_turn();
    (void)count, (void)values;
    if (is_mine())
        sqlite3_result_text(context, last.text, -1, SQLITE_TRANSIENT);
    sqlite3_mutex_leave(turn);
}

/* Without a line it is errno, which the library sets as the default VFS does. SQLite asks for no errno after FULL, but
   perhaps for that of a later failure of the default VFS. */
int get_last_error(sqlite3_vfs *vfs, int count, char *text)
{
    int error = errno;
    sqlite3_mutex *turn = take_turn();
    bool mine = is_mine();
    (void)vfs;
    if (count > 0 && text)
        snprintf(text, (size_t)count, "%s", mine ? last.text : strerror(error));
    if (mine && last.code != SQLITE_FULL)
        error = last.error;
    sqlite3_mutex_leave(turn);
    return error;
}
