/* A first store that meets a commit waits until its pages are copied, and not for some time: the thread is woken. */
#include "test.h"

#include <poll.h>
#include <stdatomic.h>
#include <sys/mman.h>
#include <sys/syscall.h>

#define ROUNDS 20u

/* A commit stays where it has closed the pages, until the other thread has been about to store for a while. */
static _Thread_local bool commits;
static atomic_bool closed, stores;
static atomic_uint sleeps;

int mprotect(void *at, size_t count, int protection)
{
    int changed = (int)syscall(SYS_mprotect, at, count, protection);
    if (commits && protection == PROT_READ) {
        atomic_store(&closed, true);
        while (!atomic_load(&stores))
            usleep(100);
        usleep(2000);
    }
    return changed;
}

int poll(struct pollfd *files, nfds_t count, int timeout)
{
    atomic_fetch_add(&sleeps, 1);
    return (int)syscall(SYS_poll, files, count, timeout);
}

static unsigned char *at;

static void *store(void *argument)
{
    while (!atomic_load(&closed))
        usleep(100);
    atomic_store(&stores, true);
    at[4096] = (unsigned char)(uintptr_t)argument;
    return NULL;
}

/* What is stored while the pages are closed comes into the next commit. */
static void round_of(famsync *handle, famsync_memory *memory, unsigned number)
{
    pthread_t thread;
    atomic_store(&closed, false);
    atomic_store(&stores, false);
    at[0] = (unsigned char)number;
    WANT(pthread_create(&thread, NULL, store, (void *)(uintptr_t)number) == 0);
    commits = true;
    WANT_CODE(famsync_msync(handle, NULL), FAMSYNC_OK);
    commits = false;
    WANT(pthread_join(thread, NULL) == 0);
    WANT(famsync_memory_dirty(memory) == 1 && at[4096] == number);
}

int main(void)
{
    famsync_memory *memory;
    make_volume(16, "a=65536");
    famsync *handle = opened_with((struct famsync_options){.foreground = 1});
    WANT_CODE(famsync_memory_open(handle, "a", &memory), FAMSYNC_OK);
    at = famsync_memory_at(memory);
    for (unsigned number = 1; number <= ROUNDS; number++) {
        round_of(handle, memory, number);
        WANT_CODE(famsync_msync(handle, NULL), FAMSYNC_OK);
    }
    WANT(atomic_load(&sleeps) == 0);
    WANT_CODE(famsync_memory_close(memory), FAMSYNC_OK);
    WANT_CODE(famsync_close(handle), FAMSYNC_OK);
    printf("clients/c: waiting: as it should be\n");
    return 0;
}
