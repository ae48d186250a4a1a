/* Whatever the core answers, a call returns a code of famsync.h. wrapped_core.c sets what the core answers. */
#include "test.h"

#include <limits.h>

static void tell_core(int answer)
{
    char text[16];
    snprintf(text, sizeof text, "%d", answer);
    WANT(setenv("CORE_ANSWER", text, 1) == 0);
}

static bool is_public(int code)
{
    return code <= 0 && strcmp(famsync_strerror(code), famsync_strerror(INT_MIN)) != 0;
}

static void want_public(int code, int answer, const char *call)
{
    if (is_public(code))
        return;
    fprintf(stderr, "%s returned %d, as the core answered %d\n", call, code, answer);
    exit(1);
}

static void want_unknown(int code, int answer, const char *call)
{
    want_public(code, answer, call);
    WANT_CODE(code, FAMSYNC_SYSTEM);
    WANT(errno == EPROTO);
    errno = 0;
}

/* A session has no thread of the library's own: that would read the environment meanwhile. */
static famsync *opened_alone(void)
{
    return opened_with((struct famsync_options){.foreground = 1});
}

static void any_answer(int answer)
{
    famsync *handle = opened_alone();
    tell_core(answer);
    want_public(famsync_write(handle, 0, 0, "x", 1, NULL), answer, "famsync_write");
    want_public(famsync_read(handle, 0, 0, (char[1]){0}, 1, NULL), answer, "famsync_read");
    want_public(famsync_setlength(handle, "a", 1), answer, "famsync_setlength");
    want_public(famsync_msync(handle, NULL), answer, "famsync_msync");
    WANT(unsetenv("CORE_ANSWER") == 0);
    famsync_close(handle);
}

/* The session goes on. */
static void unknown_answer(int answer)
{
    famsync *handle = opened_alone(), *second;
    tell_core(answer);
    want_unknown(famsync_write(handle, 0, 0, "x", 1, NULL), answer, "famsync_write");
    want_unknown(famsync_read(handle, 0, 0, (char[1]){0}, 1, NULL), answer, "famsync_read");
    want_unknown(famsync_setlength(handle, "a", 1), answer, "famsync_setlength");
    want_unknown(famsync_msync(handle, NULL), answer, "famsync_msync");
    WANT(unsetenv("CORE_ANSWER") == 0);
    WANT_CODE(famsync_write(handle, 0, 0, "x", 1, NULL), FAMSYNC_OK);
    WANT_CODE(famsync_msync(handle, NULL), FAMSYNC_OK);
    WANT_CODE(famsync_close(handle), FAMSYNC_OK);
    tell_core(answer);
    want_unknown(famsync_open(volume, NULL, &second), answer, "famsync_open");
    WANT(unsetenv("CORE_ANSWER") == 0);
}

/* No file gets its name in which the core doesn't find what was asked for. */
static void is_not_made(int answer, int code)
{
    struct famsync_new_file file = {"a", 4096, 0};
    WANT(unlink(volume) == 0 || errno == ENOENT);
    tell_core(answer);
    WANT_CODE(
        famsync_format(volume, &(struct famsync_plan){.size = sizeof(struct famsync_plan), .files = 1, .file = &file}),
        code);
    WANT(code != FAMSYNC_SYSTEM || errno == EPROTO);
    WANT(unsetenv("CORE_ANSWER") == 0);
    WANT(access(volume, F_OK) != 0);
}

int main(void)
{
    make_volume_of(FIRST_LAYOUT, 16, "a=4096");
    for (int answer = -64; answer <= 64; answer++)
        any_answer(answer);
    unknown_answer(-99);
    unknown_answer(-4);
    unknown_answer(3);
    unknown_answer(INT_MIN);
    unknown_answer(INT_MAX);
    is_not_made(-11, FAMSYNC_SYSTEM);
    is_not_made(-12, FAMSYNC_SYSTEM);
    is_not_made(-99, FAMSYNC_SYSTEM);
    is_not_made(-2, FAMSYNC_NOMEMORY);
    is_not_made(0, FAMSYNC_SYSTEM);
    printf("clients/c: answers: as it should be\n");
    return 0;
}
