/* Why calls failed, in words: each thread has the text about its last failed call. */
#include "inside.h"

#include <errno.h>
#include <stdarg.h>
#include <stdio.h>
#include <string.h>

/* The longest text has the names of a call and of a file, and three numbers. */
#define ROOM 240u

struct failure {
    uintptr_t handle; /* the handle of the call, which may be freed since; 0 if it had none */
    int explained;    /* the code that `text` explains as long as the call goes on, else FAMSYNC_OK */
    char text[ROOM];
};

PER_THREAD struct failure last;

int explain(int code, const char *format, ...)
{
    int error = errno;
    va_list values;
    va_start(values, format);
    vsnprintf(last.text, sizeof last.text, format, values);
    va_end(values);
    last.explained = code;
    errno = error;
    return code;
}

/* Whether errno has the cause. */
static bool has_errno(int code)
{
    return code == FAMSYNC_SYSTEM || code == FAMSYNC_DEVICE || code == FAMSYNC_BROKEN || code == FAMSYNC_UNMARKED ||
           code == FAMSYNC_NOSPACE;
}

/* What was explained, or else the words for the code, with those for errno; for FAMSYNC_SYSTEM these alone. */
static void describe(char text[ROOM], int code)
{
    const char *error = has_errno(code) ? strerror(errno) : "";
    if (last.explained == code)
        memcpy(text, last.text, ROOM);
    else if (code == FAMSYNC_SYSTEM)
        snprintf(text, ROOM, "%s", error);
    else
        snprintf(text, ROOM, "%s%s%s", famsync_strerror(code), *error ? ": " : "", error);
}

int note_failure(uintptr_t handle, const char *call, int code)
{
    char text[ROOM];
    int error = errno;
    describe(text, code);
    snprintf(last.text, sizeof last.text, "%s: %.200s", call, text);
    last.handle = handle;
    last.explained = FAMSYNC_OK;
    errno = error;
    return code;
}

void say_why(struct message *message, const char *path, int code)
{
    char text[ROOM];
    int error = errno;
    describe(text, code);
    say(message, "\"%s\": %s", path, text);
    errno = error;
}

struct failure *own_failure(void)
{
    return &last;
}

void share_explanation(struct failure *failure, int code)
{
    if (failure != &last && last.explained == code)
        *failure = last;
}

void forget_failure(const famsync *handle)
{
    if (last.handle == (uintptr_t)handle)
        last.text[0] = 0;
}

const char *famsync_error(const famsync *handle)
{
    return !handle || last.handle == (uintptr_t)handle ? last.text : "";
}
