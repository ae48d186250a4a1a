/* Processes that a session's process makes: one that shares its memory stores as it does, and no store is lost by that;
   one that is a copy of it has nothing of the session, whatever another thread was doing as it was made. */
#include "test.h"

#include <dlfcn.h>
#include <sched.h>
#include <stdatomic.h>

static char other[100];

/* A thread that is slow stays in this call, which famsync_memory_open makes while it has the lock of its table. */
static _Thread_local bool slow;
static atomic_bool within;

int sigaction(int number, const struct sigaction *action, struct sigaction *before)
{
    static int (*next)(int, const struct sigaction *, struct sigaction *);
    if (!next)
        *(void **)&next = dlsym(RTLD_NEXT, "sigaction");
    if (slow) {
        slow = false;
        atomic_store(&within, true);
        usleep(200000);
    }
    return next(number, action, before);
}

static famsync_memory *memory_of(famsync *handle)
{
    famsync_memory *memory;
    WANT_CODE(famsync_memory_open(handle, "a", &memory), FAMSYNC_OK);
    return memory;
}

/* What the child of vfork stores to, and of clone with CLONE_VM. */
static unsigned char *at;

static int store_first(void *argument)
{
    at[4096 * (uintptr_t)argument] = 7;
    return 0;
}

static void by_vfork(unsigned page)
{
    int status;
    pid_t child = vfork();
    if (child == 0) {
        store_first((void *)(uintptr_t)page);
        _exit(0);
    }
    WANT(waitpid(child, &status, 0) == child && status == 0);
}

static void by_clone(unsigned page)
{
    static _Alignas(16) unsigned char stack[65536];
    int status;
    pid_t child = clone(store_first, stack + sizeof stack, CLONE_VM | SIGCHLD, (void *)(uintptr_t)page);
    WANT(child > 0 && waitpid(child, &status, 0) == child && status == 0);
}

/* What was stored afterwards is in the commit; and what the child has stored, where it does share the memory. */
static void shares(void (*store)(unsigned page))
{
    unsigned char stored[16];
    make_volume(16, "a=65536");
    famsync *handle = opened();
    famsync_memory *memory = memory_of(handle);
    at = famsync_memory_at(memory);
    store(0);
    for (unsigned page = 1; page < 8; page++)
        at[page * 4096] = (unsigned char)page;
    WANT_CODE(famsync_msync(handle, NULL), FAMSYNC_OK);
    store(9);
    for (unsigned page = 10; page < 16; page++)
        at[page * 4096] = (unsigned char)page;
    WANT_CODE(famsync_msync(handle, NULL), FAMSYNC_OK);
    for (unsigned page = 0; page < 16; page++)
        stored[page] = at[page * 4096];
    WANT_CODE(famsync_memory_close(memory), FAMSYNC_OK);
    memory = memory_of(handle);
    at = famsync_memory_at(memory);
    for (unsigned page = 0; page < 16; page++)
        WANT(at[page * 4096] == stored[page] && (page % 9 == 0 || page == 8 || stored[page] == page));
    WANT_CODE(famsync_memory_close(memory), FAMSYNC_OK);
    WANT_CODE(famsync_close(handle), FAMSYNC_OK);
}

static void *open_slowly(void *handle)
{
    slow = true;
    return memory_of(handle);
}

/* Begins a session in a process that was forked; without a thread, of which a sanitizer in such a process has none. */
static famsync *opened_in_child(void)
{
    famsync *handle;
    WANT_CODE(famsync_open(other, &(struct famsync_options){.foreground = 1}, &handle), FAMSYNC_OK);
    return handle;
}

static void session_in_child(void)
{
    famsync *handle;
    famsync_memory *memory;
    alarm(20);
    handle = opened_in_child();
    memory = memory_of(handle);
    *(unsigned char *)famsync_memory_at(memory) = 1;
    WANT_CODE(famsync_msync(handle, NULL), FAMSYNC_OK);
    WANT_CODE(famsync_memory_close(memory), FAMSYNC_OK);
    WANT_CODE(famsync_close(handle), FAMSYNC_OK);
    _exit(0);
}

static void forked_within(void)
{
    pthread_t thread;
    void *memory;
    int status;
    make_volume(16, "a=65536");
    snprintf(other, sizeof other, "%s/other.img", folder);
    WANT(rename(volume, other) == 0);
    make_volume(16, "a=65536");
    famsync *handle = opened();
    WANT(pthread_create(&thread, NULL, open_slowly, handle) == 0);
    while (!atomic_load(&within))
        usleep(1000);
    pid_t child = fork();
    if (child == 0)
        session_in_child();
    WANT(waitpid(child, &status, 0) == child && status == 0);
    WANT(pthread_join(thread, &memory) == 0);
    WANT_CODE(famsync_memory_close(memory), FAMSYNC_OK);
    WANT_CODE(famsync_close(handle), FAMSYNC_OK);
}

/* A child's own session is its own, and its child's isn't. */
static void generations(void)
{
    famsync *first = opened(), *second;
    int status;
    pid_t child = fork();
    if (child == 0) {
        alarm(20);
        WANT_CODE(famsync_msync(first, NULL), FAMSYNC_FORKED);
        second = opened_in_child();
        WANT_CODE(famsync_msync(first, NULL), FAMSYNC_FORKED);
        WANT_CODE(famsync_msync(second, NULL), FAMSYNC_OK);
        child = fork();
        if (child == 0) {
            WANT_CODE(famsync_msync(first, NULL), FAMSYNC_FORKED);
            WANT_CODE(famsync_msync(second, NULL), FAMSYNC_FORKED);
            _exit(famsync_close(second));
        }
        WANT(waitpid(child, &status, 0) == child && status == 0);
        WANT_CODE(famsync_msync(second, NULL), FAMSYNC_OK);
        _exit(famsync_close(second) | famsync_close(first));
    }
    WANT(waitpid(child, &status, 0) == child && status == 0);
    WANT_CODE(famsync_msync(first, NULL), FAMSYNC_OK);
    WANT_CODE(famsync_close(first), FAMSYNC_OK);
}

/* A forked process learns that it is one, whatever its arguments are. */
static void arguments_in_child(famsync *handle, famsync_memory *memory)
{
    famsync_memory *opened_memory;
    unsigned char byte;
    alarm(20);
    WANT_CODE(famsync_read(handle, 0, 0, NULL, 1, NULL), FAMSYNC_FORKED);
    WANT_CODE(famsync_read(handle, 7, UINT64_MAX, &byte, 1, NULL), FAMSYNC_FORKED);
    WANT_CODE(famsync_write(handle, 0, 0, NULL, 1, NULL), FAMSYNC_FORKED);
    WANT_CODE(famsync_write(handle, 7, UINT64_MAX, &byte, 1, NULL), FAMSYNC_FORKED);
    WANT_CODE(famsync_stat(handle, NULL), FAMSYNC_FORKED);
    WANT_CODE(famsync_backup(handle, -1), FAMSYNC_FORKED);
    WANT_CODE(famsync_setlength(handle, NULL, 0), FAMSYNC_FORKED);
    WANT_CODE(famsync_memory_open(handle, NULL, &opened_memory), FAMSYNC_FORKED);
    WANT_CODE(famsync_memory_open(handle, "a", NULL), FAMSYNC_FORKED);
    WANT_CODE(famsync_memory_touch(memory, 65537, 1), FAMSYNC_FORKED);
    WANT_CODE(famsync_msync(handle, NULL), FAMSYNC_FORKED);
    _exit(0);
}

static void arguments(void)
{
    int status;
    make_volume(16, "a=65536");
    famsync *handle = opened();
    famsync_memory *memory = memory_of(handle);
    pid_t child = fork();
    if (child == 0)
        arguments_in_child(handle, memory);
    WANT(waitpid(child, &status, 0) == child && status == 0);
    WANT_CODE(famsync_memory_close(memory), FAMSYNC_OK);
    WANT_CODE(famsync_close(handle), FAMSYNC_OK);
}

int main(void)
{
    arguments();
    forked_within();
    generations();
    shares(by_vfork);
    if (getenv("WITHOUT_SIGNALS") == NULL) /* such a clone is what neither valgrind nor the sanitizer of threads has */
        shares(by_clone);
    printf("clients/c: children: as it should be\n");
    return 0;
}
