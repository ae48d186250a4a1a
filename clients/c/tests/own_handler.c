/* A program that owns SIGSEGV, as runtimes with a collector do, beside plain memory whose stores the kernel tracks: its
   handler opens pages of its own heap, and turns a store through a bad pointer into an error. The library leaves the
   handler where it is. No store to plain memory raises a signal, also in the handler and in a thread that blocks
   SIGSEGV. A store past the file's end goes to the program's handler. */
#include "test.h"

#include <setjmp.h>
#include <stdint.h>
#include <sys/mman.h>

#define HEAP 64u /* pages */
#define LENGTH 200000u

static famsync *handle;
static unsigned char *heap, *kept, *nowhere;
static volatile sig_atomic_t opened_pages, errors, wrong;
static void *volatile last;
static sigjmp_buf back;

/* The handler of the program: its heap's pages are opened, and noted in plain memory; all else is an error. */
static void on_fault(int number, siginfo_t *info, void *context)
{
    uintptr_t at = (uintptr_t)info->si_addr, from = (uintptr_t)heap;
    (void)number;
    (void)context;
    last = info->si_addr;
    if (at >= from && at < from + HEAP * 4096) {
        size_t page = (at - from) / 4096;
        wrong = wrong || mprotect(heap + page * 4096, 4096, PROT_READ | PROT_WRITE) != 0;
        kept[page * 8]++;
        opened_pages = opened_pages + 1;
        return;
    }
    errors = errors + 1;
    siglongjmp(back, 1);
}

static struct sigaction ours(void)
{
    struct sigaction action = {.sa_flags = SA_SIGINFO | SA_ONSTACK};
    action.sa_sigaction = on_fault;
    return action;
}

static bool is_installed(void)
{
    struct sigaction now;
    WANT(sigaction(SIGSEGV, NULL, &now) == 0);
    return now.sa_sigaction == on_fault && (now.sa_flags & SA_SIGINFO);
}

/* Whether a store raises a signal that the handler calls an error, at this address. */
static bool is_error(volatile unsigned char *at)
{
    sig_atomic_t before = errors;
    if (sigsetjmp(back, 1) == 0)
        *at = 1;
    return errors == before + 1 && last == (void *)(uintptr_t)at;
}

static void *store_blocked(void *argument)
{
    unsigned char round = *(unsigned char *)argument;
    sigset_t all;
    sigfillset(&all);
    WANT(pthread_sigmask(SIG_SETMASK, &all, NULL) == 0);
    memset(kept + 100000, round, 20000);
    return NULL;
}

/* One round of the program: it stores to its heap, closes that as a collector does, and copies it. */
static void work(unsigned char round)
{
    pthread_t thread;
    sig_atomic_t before = opened_pages;
    WANT(mprotect(heap, HEAP * 4096, PROT_READ) == 0);
    for (size_t page = 0; page < HEAP; page += 2)
        heap[page * 4096 + round] = round;
    WANT(opened_pages == before + (sig_atomic_t)HEAP / 2);
    memcpy(kept + 40960, heap, 8 * 4096);
    WANT(pthread_create(&thread, NULL, store_blocked, &round) == 0 && pthread_join(thread, NULL) == 0);
    WANT(is_error(nowhere));
    WANT(is_error(kept + (LENGTH + 4095) / 4096 * 4096));
    WANT_CODE(famsync_msync(handle, NULL), FAMSYNC_OK);
    WANT(is_installed() && wrong == 0);
}

static void judge(const unsigned char *at, unsigned rounds)
{
    for (size_t page = 0; page < HEAP; page++)
        WANT(at[page * 8] == (page % 2 == 0 ? rounds : 0));
    WANT(memcmp(at + 40960, heap, 8 * 4096) == 0);
    for (size_t i = 0; i < 20000; i++)
        WANT(at[100000 + i] == rounds);
}

static void session(bool handler_first)
{
    struct famsync_options options = {.size = sizeof options, .tracking = FAMSYNC_TRACK_KERNEL};
    struct sigaction action = ours(), standard = {.sa_handler = SIG_DFL};
    famsync_memory *memory;
    char file[40];
    snprintf(file, sizeof file, "a=%u/%u", LENGTH, 2 * LENGTH);
    make_volume_of(FIRST_LAYOUT, 60, file);
    if (handler_first)
        WANT(sigaction(SIGSEGV, &action, NULL) == 0);
    handle = opened_with(options);
    WANT_CODE(famsync_memory_open(handle, "a", &memory), FAMSYNC_OK);
    kept = famsync_memory_at(memory);
    memset(heap, 0, HEAP * 4096);
    if (!handler_first)
        WANT(sigaction(SIGSEGV, &action, NULL) == 0);
    for (unsigned char round = 1; round < 6; round++)
        work(round);
    WANT_CODE(famsync_memory_close(memory), FAMSYNC_OK);
    WANT_CODE(famsync_close(handle), FAMSYNC_OK);
    WANT(is_installed() && sigaction(SIGSEGV, &standard, NULL) == 0);
    handle = opened();
    WANT_CODE(famsync_memory_open(handle, "a", &memory), FAMSYNC_OK);
    judge(famsync_memory_at(memory), 5);
    WANT_CODE(famsync_memory_close(memory), FAMSYNC_OK);
    WANT_CODE(famsync_close(handle), FAMSYNC_OK);
}

/* In a process of its own, where the library has never installed its handler. */
static void in_child(bool handler_first)
{
    int status;
    pid_t child = fork();
    WANT(child >= 0);
    if (child == 0) {
        heap = mmap(NULL, HEAP * 4096, PROT_READ | PROT_WRITE, MAP_PRIVATE | MAP_ANONYMOUS, -1, 0);
        nowhere = mmap(NULL, 4096, PROT_NONE, MAP_PRIVATE | MAP_ANONYMOUS, -1, 0);
        WANT(heap != MAP_FAILED && nowhere != MAP_FAILED);
        session(handler_first);
        _exit(0);
    }
    WANT(waitpid(child, &status, 0) == child && status == 0);
}

static bool is_supported(void)
{
    struct famsync_options options = {.size = sizeof options, .tracking = FAMSYNC_TRACK_KERNEL};
    famsync *tried;
    make_volume(16, "a=4096");
    int code = famsync_open(volume, &options, &tried);
    WANT(code == FAMSYNC_OK || code == FAMSYNC_TRACKING);
    return code == FAMSYNC_OK && famsync_close(tried) == FAMSYNC_OK;
}

int main(void)
{
    if (!is_supported()) {
        printf("clients/c: own_handler: the system can't track stores, and says so\n");
        return 0;
    }
    in_child(true);
    in_child(false);
    printf("clients/c: own_handler: as it should be\n");
    return 0;
}
