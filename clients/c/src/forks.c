/* The handles of this process, and which process it is. A process that is forked lets their volumes go: else a volume
   would be in use until the last of both has ended. */
#include "inside.h"

#include <sys/mman.h>
#include <unistd.h>

static pthread_mutex_t list = PTHREAD_MUTEX_INITIALIZER;
static famsync *handles;

/* The number of this process, in a page that is zeros in a process that was forked: by its memory it is another one. A
   child of vfork, or of clone with CLONE_VM, has another number of the kernel's, and the same memory. */
static _Atomic uint64_t *process;
static uint64_t processes; /* how many numbers were given; under `list` */

/* What faults.c does under the lock of its table is done, too, so that the child finds the table whole and free. */
static void before_fork(void)
{
    pthread_mutex_lock(&list);
    lock_table();
}

static void after_fork_in_parent(void)
{
    unlock_table();
    pthread_mutex_unlock(&list);
}

/* The lock of a file stays with the process that was forked from, as that has it open still. */
static void after_fork_in_child(void)
{
    atomic_store(process, 0); /* where the system doesn't know of pages that are wiped */
    for (famsync *handle = handles; handle; handle = handle->next) {
        let_volume_go(&handle->volume);
        end_tracking(&handle->tracker);
    }
    unlock_table();
    pthread_mutex_unlock(&list);
}

static int begin(void)
{
    void *page = mmap(NULL, PAGE, PROT_READ | PROT_WRITE, MAP_PRIVATE | MAP_ANONYMOUS, -1, 0);
    if (page == MAP_FAILED)
        return FAMSYNC_NOMEMORY;
    (void)madvise(page, PAGE, MADV_WIPEONFORK);
    process = page;
    pthread_atfork(before_fork, after_fork_in_parent, after_fork_in_child);
    return FAMSYNC_OK;
}

bool is_forked(const famsync *handle)
{
    return handle && handle->process != atomic_load(process);
}

static void link_handle(famsync *handle)
{
    if (atomic_load(process) == 0)
        atomic_store(process, ++processes);
    handle->process = atomic_load(process);
    handle->pid = getpid();
    handle->next = handles;
    handle->link = &handles;
    if (handles)
        handles->link = &handle->next;
    handles = handle;
}

int enter_handle(famsync *handle)
{
    int code;
    pthread_mutex_lock(&list);
    code = process ? FAMSYNC_OK : begin();
    if (code == FAMSYNC_OK)
        link_handle(handle);
    pthread_mutex_unlock(&list);
    return code;
}

void leave_handle(famsync *handle)
{
    pthread_mutex_lock(&list);
    *handle->link = handle->next;
    if (handle->next)
        handle->next->link = handle->link;
    unlock_volume(&handle->volume);
    pthread_mutex_unlock(&list);
}
