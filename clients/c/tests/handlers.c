/* Faults beside other handlers of SIGSEGV, and stores without any: a handler that was installed later is called for
   what isn't the library's, and calls the library's itself; a jump into memory is no store; pages that were opened
   ahead. */
#include "test.h"

#include <setjmp.h>
#include <sys/mman.h>

static sigjmp_buf back;
static char *volatile elsewhere;
static struct sigaction before_first, before_second;
static volatile sig_atomic_t original, first, second;

static void jump_back(int number)
{
    (void)number;
    original = original + 1;
    siglongjmp(back, 1);
}

/* Two that call the one that was there as they were installed. */
static void on_first(int number, siginfo_t *info, void *context)
{
    first = first + 1;
    before_first.sa_sigaction(number, info, context);
}

static void on_second(int number, siginfo_t *info, void *context)
{
    second = second + 1;
    before_second.sa_sigaction(number, info, context);
}

static void install(void (*handler)(int, siginfo_t *, void *), struct sigaction *before)
{
    struct sigaction action = {.sa_flags = SA_SIGINFO};
    action.sa_sigaction = handler;
    WANT(sigaction(SIGSEGV, &action, before) == 0);
}

static famsync_memory *memory_of(famsync *handle, const char *file)
{
    famsync_memory *memory;
    WANT_CODE(famsync_memory_open(handle, file, &memory), FAMSYNC_OK);
    return memory;
}

/* Runs a test in a child that ends within a minute. */
static void in_child(void (*test)(void))
{
    int status;
    pid_t child = fork();
    if (child == 0) {
        alarm(60);
        elsewhere = mmap(NULL, 4096, PROT_READ, MAP_PRIVATE | MAP_ANONYMOUS, -1, 0);
        test();
        raise(SIGKILL); /* so that nothing that watches says how it ends */
    }
    WANT(waitpid(child, &status, 0) == child && WIFSIGNALED(status) && WTERMSIG(status) == SIGKILL);
}

/* How often each handler is called for a fault that is nobody's. */
static void fault_elsewhere(int by_second, int by_first)
{
    original = first = second = 0;
    if (sigsetjmp(back, 1) == 0)
        elsewhere[0] = 1;
    WANT(original == 1 && second == by_second && first == by_first);
}

/* And for a store to memory. */
static void fault_within(unsigned char *at, int by_second, int by_first)
{
    original = first = second = 0;
    *(volatile unsigned char *)at = 1;
    WANT(original == 0 && second == by_second && first == by_first);
}

static void later_handlers(void)
{
    struct sigaction action = {.sa_handler = jump_back};
    WANT(sigaction(SIGSEGV, &action, NULL) == 0);
    famsync *handle = opened();
    unsigned char *a = famsync_memory_at(memory_of(handle, "a"));
    fault_elsewhere(0, 0);
    fault_within(a, 0, 0);
    install(on_first, &before_first);
    fault_elsewhere(0, 1);
    fault_within(a + 4096, 0, 1);
    /* the library's comes first again, and then the one that calls it */
    unsigned char *b = famsync_memory_at(memory_of(handle, "b"));
    fault_within(a + 3 * 4096, 0, 0);
    fault_within(b, 0, 0);
    for (int i = 0; i < 3; i++)
        fault_elsewhere(0, 1);
    install(on_second, &before_second);
    fault_within(b + 4096, 1, 0);
    for (int i = 0; i < 3; i++)
        fault_elsewhere(1, 1);
    unsigned char *c = famsync_memory_at(memory_of(handle, "c"));
    fault_within(c, 0, 0);
    for (int i = 0; i < 3; i++)
        fault_elsewhere(1, 1);
    WANT_CODE(famsync_msync(handle, NULL), FAMSYNC_OK);
}

/* One that doesn't call the library's: memory that is opened later has it called all the same. */
static void selfish_handler(void)
{
    struct sigaction action = {.sa_handler = jump_back};
    famsync *handle = opened();
    unsigned char *a = famsync_memory_at(memory_of(handle, "a"));
    fault_within(a, 0, 0);
    WANT(sigaction(SIGSEGV, &action, NULL) == 0);
    unsigned char *b = famsync_memory_at(memory_of(handle, "b"));
    fault_within(b, 0, 0);
    fault_within(a + 4096, 0, 0);
    fault_elsewhere(0, 0);
    /* and again, many times */
    for (int i = 0; i < 40; i++) {
        WANT(sigaction(SIGSEGV, &action, NULL) == 0);
        famsync_memory *memory = memory_of(handle, "c");
        fault_within(famsync_memory_at(memory), 0, 0);
        WANT_CODE(famsync_memory_close(memory), FAMSYNC_OK);
    }
    fault_elsewhere(0, 0);
}

/* Handlers that take each other's place again and again, until the library has no room for one more: the memory isn't
   opened, and no memory was refused. */
static void too_many_handlers(void)
{
    struct sigaction before;
    famsync *handle = opened();
    famsync_memory *memory;
    for (int times = 0; times < 16; times++) {
        install(times % 2 == 0 ? on_first : on_second, &before);
        WANT_CODE(famsync_memory_close(memory_of(handle, "a")), FAMSYNC_OK);
    }
    install(on_first, &before);
    WANT_CODE(famsync_memory_open(handle, "a", &memory), FAMSYNC_SYSTEM);
    WANT(errno == ENOSPC && memory == NULL);
}

/* A jump into memory ends in the program's handler, whether the page was stored to or not. */
static void jumps(void)
{
    struct sigaction action = {.sa_handler = jump_back};
    WANT(sigaction(SIGSEGV, &action, NULL) == 0);
    famsync *handle = opened();
    famsync_memory *memory = memory_of(handle, "a");
    unsigned char *at = famsync_memory_at(memory);
    at[0] = 1;
    for (size_t page = 0; page < 2; page++) {
        void (*code)(void) = (void (*)(void))(uintptr_t)(at + page * 4096);
        if (sigsetjmp(back, 1) == 0)
            code();
    }
    WANT(original == 2 && famsync_memory_dirty(memory) == 1);
}

/* The kernel, a thread that blocks the signal, and one beside a handler that takes all faults. */
static void touched(void)
{
    struct sigaction action = {.sa_handler = jump_back};
    sigset_t blocked;
    famsync *handle = opened();
    famsync_memory *memory = memory_of(handle, "a");
    unsigned char *at = famsync_memory_at(memory);
    int file = open(volume, O_RDONLY | O_CLOEXEC);
    WANT(read(file, at + 100, 5000) == -1 && errno == EFAULT);
    WANT_CODE(famsync_memory_touch(memory, 100, 5000), FAMSYNC_OK);
    WANT(famsync_memory_dirty(memory) == 2);
    WANT(read(file, at + 100, 5000) == 5000 && memcmp(at + 100, "FAMSYNC", 7) == 0);
    sigfillset(&blocked);
    WANT(pthread_sigmask(SIG_SETMASK, &blocked, NULL) == 0);
    WANT_CODE(famsync_memory_touch(memory, 3 * 4096, 1), FAMSYNC_OK);
    at[3 * 4096] = 7;
    WANT(sigaction(SIGSEGV, &action, NULL) == 0);
    WANT_CODE(famsync_memory_touch(memory, 5 * 4096, 4096), FAMSYNC_OK);
    at[6 * 4096 - 1] = 8;
    WANT(famsync_memory_dirty(memory) == 4);
    WANT_CODE(famsync_msync(handle, NULL), FAMSYNC_OK);
    WANT(famsync_memory_dirty(memory) == 0);
    WANT_CODE(famsync_memory_close(memory), FAMSYNC_OK);
    memory = memory_of(handle, "a");
    at = famsync_memory_at(memory);
    WANT(memcmp(at + 100, "FAMSYNC", 7) == 0 && at[3 * 4096] == 7 && at[6 * 4096 - 1] == 8);
}

static void ranges_to_touch(void)
{
    famsync *handle = opened();
    famsync_memory *memory = memory_of(handle, "a");
    size_t length = famsync_memory_length(memory), most = famsync_frames(handle) * (size_t)4096;
    WANT_CODE(famsync_memory_touch(NULL, 0, 0), FAMSYNC_ARGUMENT);
    WANT_CODE(famsync_memory_touch(memory, length + 1, 0), FAMSYNC_ARGUMENT);
    WANT_CODE(famsync_memory_touch(memory, 0, length + 1), FAMSYNC_ARGUMENT);
    WANT_CODE(famsync_memory_touch(memory, 1, SIZE_MAX), FAMSYNC_ARGUMENT);
    WANT_CODE(famsync_memory_touch(memory, 1, most), FAMSYNC_NOFRAME);
    WANT_CODE(famsync_memory_touch(memory, length, 0), FAMSYNC_OK);
    WANT(famsync_memory_dirty(memory) == 0);
    WANT_CODE(famsync_memory_touch(memory, length - 1, 1), FAMSYNC_OK);
    WANT(famsync_memory_dirty(memory) == 1);
    WANT_CODE(famsync_msync(handle, NULL), FAMSYNC_OK);
    WANT_CODE(famsync_memory_touch(memory, 4096, most), FAMSYNC_OK);
    WANT(famsync_memory_dirty(memory) == famsync_frames(handle));
    WANT_CODE(famsync_msync(handle, NULL), FAMSYNC_OK);
    WANT_CODE(famsync_memory_close(memory), FAMSYNC_OK);
    WANT_CODE(famsync_close(handle), FAMSYNC_OK);
}

int main(void)
{
    make_volume(16, "a=81919 b=65536 c=4096");
    in_child(later_handlers);
    in_child(selfish_handler);
    in_child(too_many_handlers);
    in_child(jumps);
    in_child(touched);
    ranges_to_touch();
    printf("clients/c: handlers: as it should be\n");
    return 0;
}
