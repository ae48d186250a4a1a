/*
 * Stands between the host and the core in tests/answers.c and tests/cut_off (`ld --wrap`):
 *
 *   CORE_LOG=PATH   each call that the core records is written there, a line each: core W OFFSET HEX, or core S; and
 * how many the host has made: core made COUNT
 *   CORE_ANSWER=N   open, read, write, set_length and commit answer this number, and the core isn't called
 */
#define _DEFAULT_SOURCE
#include "famsync_core.h"

#include <fcntl.h>
#include <stdio.h>
#include <stdlib.h>
#include <sys/syscall.h>
#include <unistd.h>

/* Declares the core's own call, and the one by which the host calls it. */
#define WRAPPED(answer, name, ...)                                                                                     \
    answer __real_famsync_core_##name(__VA_ARGS__);                                                                    \
    answer __wrap_famsync_core_##name(__VA_ARGS__);                                                                    \
    answer __wrap_famsync_core_##name(__VA_ARGS__)

/* How many of the waiting calls of the session are in the log. */
static uint32_t logged;

/* Whether a test has set what a call answers. */
static bool is_told(famsync_core core, uint8_t **at, int32_t *answer)
{
    const char *told = getenv("CORE_ANSWER");
    if (!told)
        return false;
    *at = core.at;
    *answer = (int32_t)strtol(told, NULL, 10);
    return true;
}

/* A test may have a `write` of its own. */
static void put(int file, const char *text, size_t length)
{
    if (syscall(SYS_write, file, text, length) != (long)length)
        abort();
}

static void put_digits(int file, const uint8_t *bytes, uint64_t length)
{
    static const char DIGITS[] = "0123456789abcdef";
    char text[8192];
    size_t used = 0;
    for (uint64_t i = 0; i < length; i++) {
        text[used++] = DIGITS[bytes[i] / 16];
        text[used++] = DIGITS[bytes[i] % 16];
        if (used == sizeof text || i + 1 == length) {
            put(file, text, used);
            used = 0;
        }
    }
}

static void put_call(int file, uint32_t kind, uint64_t offset, const uint8_t *bytes, uint64_t length)
{
    char text[64];
    if (kind == FAMSYNC_CORE_CALL_SYNC) {
        put(file, "core S\n", 7);
        return;
    }
    put(file, text, (size_t)snprintf(text, sizeof text, "core W %llu ", (unsigned long long)offset));
    put_digits(file, bytes, length);
    put(file, "\n", 1);
}

static int log_file(void)
{
    const char *path = getenv("CORE_LOG");
    return path ? open(path, O_WRONLY | O_CREAT | O_APPEND, 0600) : -1;
}

/* Writes the calls that the core has recorded since the last time. */
static int32_t noted(int32_t answer, uint8_t **at)
{
    int file = log_file();
    if (file < 0)
        return answer;
    while (logged < famsync_core_waiting((famsync_core){*at}, at)) {
        uint32_t kind;
        uint64_t offset, length;
        const uint8_t *bytes;
        if (famsync_core_call((famsync_core){*at}, logged++, &kind, &offset, &bytes, &length, at) != FAMSYNC_CORE_OK)
            abort();
        put_call(file, kind, offset, bytes, length);
    }
    close(file);
    return answer;
}

WRAPPED(int32_t, begin, uint32_t blocks, uint8_t **at)
{
    logged = 0;
    return __real_famsync_core_begin(blocks, at);
}

WRAPPED(int32_t, open, famsync_core core, uint32_t pages, uint32_t *wanted, uint8_t **at)
{
    int32_t answer;
    if (is_told(core, at, &answer))
        return answer;
    return noted(__real_famsync_core_open(core, pages, wanted, at), at);
}

WRAPPED(int32_t, read, famsync_core core, uint32_t file, uint64_t page, uint8_t *bytes, size_t count, uint32_t *wanted,
        uint8_t **at)
{
    int32_t answer;
    if (is_told(core, at, &answer))
        return answer;
    return __real_famsync_core_read(core, file, page, bytes, count, wanted, at);
}

WRAPPED(int32_t, write, famsync_core core, uint32_t file, uint64_t page, const uint8_t *bytes, size_t count,
        uint8_t **at)
{
    int32_t answer;
    if (is_told(core, at, &answer))
        return answer;
    return __real_famsync_core_write(core, file, page, bytes, count, at);
}

WRAPPED(int32_t, set_length, famsync_core core, uint32_t file, uint64_t length, uint32_t *wanted, uint8_t **at)
{
    int32_t answer;
    if (is_told(core, at, &answer))
        return answer;
    return __real_famsync_core_set_length(core, file, length, wanted, at);
}

WRAPPED(int32_t, commit, famsync_core core, uint32_t *mark, uint32_t *wanted, uint8_t **at)
{
    int32_t answer;
    if (is_told(core, at, &answer))
        return answer;
    return noted(__real_famsync_core_commit(core, mark, wanted, at), at);
}

WRAPPED(int32_t, write_out, famsync_core core, uint32_t most, uint32_t *wanted, uint8_t **at)
{
    return noted(__real_famsync_core_write_out(core, most, wanted, at), at);
}

WRAPPED(int32_t, carried_out, famsync_core core, uint32_t count, uint8_t **at)
{
    int32_t answer = __real_famsync_core_carried_out(core, count, at);
    int file = log_file();
    char text[64];
    if (answer == FAMSYNC_CORE_OK)
        logged -= count < logged ? count : logged;
    if (answer == FAMSYNC_CORE_OK && file >= 0)
        put(file, text, (size_t)snprintf(text, sizeof text, "core made %u\n", count));
    if (file >= 0)
        close(file);
    return answer;
}
