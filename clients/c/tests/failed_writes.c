/* Who gets the error of a write that failed, and errno: also where it was made by another thread. */
#include "test.h"

#include <stdatomic.h>
#include <sys/syscall.h>
#include <sys/uio.h>

/* The writes of threads that aren't spared fail by this errno, where it isn't 0; those of the others wait while they
   are held. */
static _Thread_local bool spared;
static atomic_int fails;
static atomic_bool held;
static atomic_uint failed, waiting;

ssize_t pwritev(int file, const struct iovec *range, int count, off_t offset)
{
    if (!spared && atomic_load(&fails) != 0) {
        errno = atomic_load(&fails);
        atomic_fetch_add(&failed, 1);
        return -1;
    }
    if (spared && atomic_load(&held))
        atomic_fetch_add(&waiting, 1);
    while (spared && atomic_load(&held))
        usleep(1000);
    return syscall(SYS_pwritev, file, range, count, offset, 0);
}

static famsync *handle;
static famsync_memory *memory;

static void begin(void)
{
    uint64_t number = 1;
    atomic_store(&fails, 0);
    atomic_store(&failed, 0);
    atomic_store(&waiting, 0);
    make_volume(16, "a=65536");
    handle = opened();
    WANT_CODE(famsync_memory_open(handle, "a", &memory), FAMSYNC_OK);
    WANT_CODE(famsync_write(handle, 0, 0, &number, sizeof number, NULL), FAMSYNC_OK);
}

/* The session is over, and the close answers once more why. */
static void end(int error)
{
    unsigned char byte;
    WANT_CODE(famsync_read(handle, 0, 0, &byte, 1, NULL), FAMSYNC_BROKEN);
    WANT_CODE(famsync_memory_close(memory), FAMSYNC_OK);
    errno = 0;
    WANT_CODE(famsync_close(handle), FAMSYNC_DEVICE);
    WANT(errno == error);
}

/* A write of the library's own thread fails: the next call gets its error. */
static void in_the_background(void)
{
    unsigned char byte;
    begin();
    atomic_store(&fails, ENOSPC);
    WANT_CODE(famsync_msync(handle, NULL), FAMSYNC_OK);
    while (atomic_load(&failed) == 0)
        usleep(1000);
    errno = 0;
    WANT_CODE(famsync_read(handle, 0, 0, &byte, 1, NULL), FAMSYNC_DEVICE);
    WANT(errno == ENOSPC);
    end(ENOSPC);
}

/* A commit of a thread, with a store to a page; and what it was answered, with errno. */
struct commit {
    pthread_t thread;
    unsigned page;
    bool spared;
    int code, error;
};

static void *commit(void *argument)
{
    struct commit *mine = argument;
    spared = mine->spared;
    ((unsigned char *)famsync_memory_at(memory))[mine->page * 4096] = 1;
    errno = 0;
    mine->code = famsync_msync(handle, NULL);
    mine->error = errno;
    return NULL;
}

/* Two threads share a commit that fails: each gets the error. To one that comes too late to share it the session is
   over. */
static void shared(void)
{
    struct commit first = {.spared = true}, next[2] = {{.page = 1}, {.page = 2}};
    unsigned shared_by = 0;
    begin();
    atomic_store(&held, true);
    WANT(pthread_create(&first.thread, NULL, commit, &first) == 0);
    while (atomic_load(&waiting) == 0)
        usleep(1000);
    for (unsigned i = 0; i < 2; i++)
        WANT(pthread_create(&next[i].thread, NULL, commit, &next[i]) == 0);
    usleep(50000);
    atomic_store(&fails, EFBIG);
    atomic_store(&held, false);
    WANT(pthread_join(first.thread, NULL) == 0);
    WANT_CODE(first.code, FAMSYNC_OK);
    for (unsigned i = 0; i < 2; i++) {
        WANT(pthread_join(next[i].thread, NULL) == 0);
        WANT(next[i].code == FAMSYNC_DEVICE || next[i].code == FAMSYNC_BROKEN);
        WANT(next[i].error == EFBIG);
        shared_by += next[i].code == FAMSYNC_DEVICE;
    }
    WANT(shared_by > 0);
    end(EFBIG);
}

int main(void)
{
    spared = true;
    in_the_background();
    shared();
    printf("clients/c: failed_writes: as it should be\n");
    return 0;
}
