/* A thread that is cancelled within a call ends after it: nothing stays locked, and what it asked for is done. */
#include "test.h"

#include <stdatomic.h>
#include <sys/syscall.h>
#include <sys/uio.h>

/* A write or a read of the volume waits while it is held, in a call at which a thread may be cancelled. */
static atomic_bool held, waiting;

static void pause_held(void)
{
    while (atomic_load(&held)) {
        atomic_store(&waiting, true);
        usleep(1000);
    }
}

ssize_t pwritev(int file, const struct iovec *range, int count, off_t offset)
{
    pause_held();
    return syscall(SYS_pwritev, file, range, count, offset, 0);
}

ssize_t pread(int file, void *bytes, size_t count, off_t offset)
{
    pause_held();
    return syscall(SYS_pread64, file, bytes, count, offset);
}

/* No thread of the library makes the writes that the call of famsync_close is held in. (Options on the stack of a
   thread that is cancelled would confuse AddressSanitizer.) */
static const struct famsync_options foreground = {.foreground = 1};

static famsync *handle, *second;
static unsigned char byte;
static char other[100];
static int code;

static void *commit(void *argument)
{
    (void)argument;
    code = famsync_msync(handle, NULL);
    pthread_testcancel();
    return NULL;
}

static void *load(void *argument)
{
    (void)argument;
    code = famsync_read(handle, 0, 8 * 4096, &byte, 1, NULL);
    pthread_testcancel();
    return NULL;
}

static void *begin(void *argument)
{
    (void)argument;
    code = famsync_open(other, &foreground, &second);
    pthread_testcancel();
    return NULL;
}

static void *end(void *argument)
{
    (void)argument;
    code = famsync_close(second);
    pthread_testcancel();
    return NULL;
}

/* Cancels a call on its way; it does what it was to do all the same. */
static void cancelled(void *(*call)(void *))
{
    pthread_t thread;
    void *result;
    code = 1;
    atomic_store(&waiting, false);
    atomic_store(&held, true);
    WANT(pthread_create(&thread, NULL, call, NULL) == 0);
    while (!atomic_load(&waiting))
        usleep(1000);
    WANT(pthread_cancel(thread) == 0);
    usleep(20000);
    atomic_store(&held, false);
    WANT(pthread_join(thread, &result) == 0 && result == PTHREAD_CANCELED);
    WANT_CODE(code, FAMSYNC_OK);
}

static void store(famsync *to, uint64_t at)
{
    WANT_CODE(famsync_write(to, 0, at, "x", 1, NULL), FAMSYNC_OK);
}

int main(void)
{
    alarm(120);
    make_volume(16, "a=65536");
    snprintf(other, sizeof other, "%s/other.img", folder);
    WANT(rename(volume, other) == 0);
    make_volume(16, "a=65536");
    handle = opened_with((struct famsync_options){.foreground = 1});
    store(handle, 0);
    cancelled(commit);
    WANT(famsync_acknowledged(handle) == 1);
    cancelled(load);
    cancelled(begin);
    store(second, 0);
    WANT_CODE(famsync_msync(second, NULL), FAMSYNC_OK);
    cancelled(end);
    store(handle, 4096);
    WANT_CODE(famsync_msync(handle, NULL), FAMSYNC_OK);
    WANT_CODE(famsync_close(handle), FAMSYNC_OK);
    printf("clients/c: cancelled: as it should be\n");
    return 0;
}
