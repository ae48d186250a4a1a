/* Codes in words, and the library's codes for those of the core. */
#include "inside.h"

#include <errno.h>
#include <stdarg.h>
#include <stdio.h>

static const struct {
    int code;
    const char *text;
} CODES[] = {
    {FAMSYNC_OK, "success"},
    {FAMSYNC_ARGUMENT, "an argument is invalid"},
    {FAMSYNC_NOMEMORY, "memory couldn't be allocated"},
    {FAMSYNC_SYSTEM, "a system call failed"},
    {FAMSYNC_INUSE, "the volume is open already"},
    {FAMSYNC_SUSPECT, "the volume is flagged as suspect: an earlier sync failed"},
    {FAMSYNC_FORKED, "the session belongs to the parent process"},
    {FAMSYNC_TORN, "only part of the changes was made, prepared or undone: roll back before the next commit"},
    {FAMSYNC_NOTREGULAR, "the volume isn't a regular file"},
    {FAMSYNC_NAMES, "the volume's file has several names (hard links)"},
    {FAMSYNC_REPLACED, "the volume's file was replaced while it was being opened"},
    {FAMSYNC_NOTAVOLUME, "the file isn't a volume"},
    {FAMSYNC_DAMAGED, "the volume is damaged"},
    {FAMSYNC_LAYOUT, "the volume has one of layouts 1 to 4; copy it with `famsync migrate --layout 5 OLD NEW`"},
    {FAMSYNC_SHAPE, "the option `frames` is too large for this volume"},
    {FAMSYNC_NOFRAME, "too many pages for one commit were written, or added to a file"},
    {FAMSYNC_DEVICE, "a read, a write or a sync of the volume failed, or memory for it couldn't be allocated"},
    {FAMSYNC_BROKEN, "a write or a sync of the volume failed earlier, so the session is over"},
    {FAMSYNC_EINVAL, "the bytes or the length are outside the file's range"},
    {FAMSYNC_NOSPACE, "the disk is full, or a quota is used up"},
    {FAMSYNC_OVERLAP, "plain memory of the file is already open"},
    {FAMSYNC_NOFILE, "the volume has no such file"},
    {FAMSYNC_BUSY, "a group is open, a backup is being made, a thread stored during the commit, or no number is left "
                   "for a commit or an opening"},
    {FAMSYNC_UNMARKED, "a sync of the volume failed, and its suspect flag couldn't be made"},
    {FAMSYNC_NEEDSOPENING, "a crash or a failed write or sync left work: open the volume for writing once"},
    {FAMSYNC_READONLY, "the session only reads"},
    {FAMSYNC_ADDRESS, "plain memory can't be at this address"},
    {FAMSYNC_TRACKING, "the system can't track stores to plain memory in the requested way"},
    {FAMSYNC_TRANSACTION, "a transaction is open: it has to be committed or rolled back first"},
};

const char *famsync_strerror(int code)
{
    for (size_t i = 0; i < sizeof CODES / sizeof CODES[0]; i++)
        if (CODES[i].code == code)
            return CODES[i].text;
    return "unknown code";
}

int code_of(int64_t core_code)
{
    switch (core_code) {
    case FAMSYNC_CORE_OK:
    case FAMSYNC_CORE_NONE:
        return FAMSYNC_OK;
    case FAMSYNC_CORE_NOTAVOLUME:
        return FAMSYNC_NOTAVOLUME;
    case FAMSYNC_CORE_DAMAGED:
        return FAMSYNC_DAMAGED;
    /* these have the same number in famsync.h */
    case FAMSYNC_CORE_ARGUMENT:
    case FAMSYNC_CORE_NOMEMORY:
    case FAMSYNC_CORE_NOFRAME:
    case FAMSYNC_CORE_DEVICE:
    case FAMSYNC_CORE_BROKEN:
    case FAMSYNC_CORE_EINVAL:
    case FAMSYNC_CORE_NOFILE:
    case FAMSYNC_CORE_BUSY:
        return (int)core_code;
    /* The core has others (ORDER, OTHER), which this library never gets: it opens a volume once, and before all other
       calls. A caller that may get WANTED looks for it before. */
    default:
        errno = EPROTO;
        return FAMSYNC_SYSTEM;
    }
}

int answer_of(famsync *handle, int64_t core_code)
{
    if (core_code != FAMSYNC_CORE_DEVICE && core_code != FAMSYNC_CORE_BROKEN)
        return code_of(core_code);
    handle->ended = FAMSYNC_DEVICE;
    handle->error = errno = ENOMEM;
    return FAMSYNC_DEVICE;
}

void say(struct message *message, const char *format, ...)
{
    va_list values;
    if (!message->text || message->room == 0)
        return;
    va_start(values, format);
    vsnprintf(message->text, message->room, format, values);
    va_end(values);
}
