/* The handler of SIGSEGV that notes the first store to each page of plain memory, and opens the page for writing. */
#include "memory.h"

#include <errno.h>
#include <linux/futex.h>
#include <stdlib.h>
#include <string.h>
#include <sys/mman.h>
#include <sys/syscall.h>
#include <time.h>
#include <ucontext.h>
#include <unistd.h>

/* The most pages that are opened for one store, where stores come to one page after the other. */
#define MOST_AHEAD 32u

/*
 * Where plain memory lies, for the handler: it may run in any thread at any time, and so looks at nothing that could be
 * freed. `version` is odd while an entry changes. A thread that stores to a memory isn't looking for one that changes.
 * A part that was added to the table is never freed.
 */
#define ENTRIES 256u

struct entry {
    atomic_uint version;
    _Atomic uintptr_t begin, end;
    _Atomic(famsync_memory *) memory;
};

static struct part {
    struct entry entry[ENTRIES];
    _Atomic(struct part *) next;
} table;

static pthread_mutex_t table_lock = PTHREAD_MUTEX_INITIALIZER;

/* The handlers of SIGSEGV that were there when the library installed its own, the newest one last: it is installed
   again where the program has put another one in its place. */
#define MOST_HANDLERS 16u

static struct sigaction earlier[MOST_HANDLERS];
static atomic_uint handlers;

/* A fault that was passed on has one of these as the uc_link of its context, which the kernel leaves null. A handler
   that was installed after the library's calls that again, with the same context: then the one before it comes next.
   What another copy of the library in this process has put there stays. */
static unsigned char passed[MOST_HANDLERS + 1];

void lock_table(void)
{
    pthread_mutex_lock(&table_lock);
}

void unlock_table(void)
{
    pthread_mutex_unlock(&table_lock);
}

static void set_entry(struct entry *entry, uintptr_t begin, uintptr_t end, famsync_memory *memory)
{
    atomic_fetch_add(&entry->version, 1);
    atomic_store(&entry->begin, begin);
    atomic_store(&entry->end, end);
    atomic_store(&entry->memory, memory);
    atomic_fetch_add(&entry->version, 1);
}

/* The memory of an entry, if it has this address and isn't changing. */
static famsync_memory *memory_at(struct entry *entry, uintptr_t address)
{
    unsigned version = atomic_load(&entry->version);
    bool in = address >= atomic_load(&entry->begin) && address < atomic_load(&entry->end);
    famsync_memory *memory = atomic_load(&entry->memory);
    return in && version % 2 == 0 && atomic_load(&entry->version) == version ? memory : NULL;
}

static famsync_memory *memory_of(uintptr_t address)
{
    for (struct part *part = &table; part; part = atomic_load(&part->next))
        for (unsigned i = 0; i < ENTRIES; i++) {
            famsync_memory *memory = memory_at(&part->entry[i], address);
            if (memory)
                return memory;
        }
    return NULL;
}

/* The states of the lock; and how often it is tried before its holder is waited for. */
enum { FREE, TAKEN, WAITED_FOR };
#define SPINS 100

/* Waits while the lock is in this state, up to 0.1 s. */
static void await_change(atomic_uint *lock, unsigned state)
{
    static const struct timespec longest = {.tv_nsec = 100000000};
    syscall(SYS_futex, lock, FUTEX_WAIT_PRIVATE, state, &longest);
}

/* Whether this process shares the memory of one that has ended, maybe by a kill while it had the lock. */
static bool is_left_behind(const famsync *handle)
{
    return getpid() != handle->pid && kill(handle->pid, 0) != 0 && errno == ESRCH;
}

void take(famsync *handle)
{
    int error = errno;
    for (unsigned tries = 0; tries < SPINS; tries++) {
        unsigned state = FREE;
        if (atomic_compare_exchange_weak_explicit(&handle->closing, &state, TAKEN, memory_order_acquire,
                                                  memory_order_relaxed))
            return;
    }
    while (atomic_exchange_explicit(&handle->closing, WAITED_FOR, memory_order_acquire) != FREE &&
           !is_left_behind(handle))
        await_change(&handle->closing, WAITED_FOR);
    errno = error;
}

void give(famsync *handle)
{
    int error = errno;
    if (atomic_exchange_explicit(&handle->closing, FREE, memory_order_release) == WAITED_FOR)
        syscall(SYS_futex, &handle->closing, FUTEX_WAKE_PRIVATE, 1);
    errno = error;
}

/* A fault for which there was no handler: the store is made again, and ends the process as it would have; a signal that
   was sent is sent again. */
static void end_process(bool sent)
{
    struct sigaction standard = {.sa_handler = SIG_DFL};
    sigaction(SIGSEGV, &standard, NULL);
    if (sent)
        raise(SIGSEGV);
}

/* To how many handlers a fault was passed already. */
static unsigned times_passed(const ucontext_t *context)
{
    uintptr_t link = (uintptr_t)context->uc_link, first = (uintptr_t)passed;
    return link >= first && link < first + sizeof passed ? (unsigned)(link - first) : 0;
}

/* Calls a handler as the kernel would, with the signals blocked that it asked for. */
static void call_handler(const struct sigaction *handler, int number, siginfo_t *info, ucontext_t *context)
{
    sigset_t blocked = context->uc_sigmask;
    for (int other = 1; other < 64; other++)
        if (sigismember(&handler->sa_mask, other) == 1)
            sigaddset(&blocked, other);
    if (!(handler->sa_flags & SA_NODEFER))
        sigaddset(&blocked, SIGSEGV);
    pthread_sigmask(SIG_SETMASK, &blocked, NULL);
    if (handler->sa_flags & SA_SIGINFO)
        handler->sa_sigaction(number, info, context);
    else
        handler->sa_handler(number);
}

/* A fault that isn't ours goes to whoever had it before. */
static void pass_on(int number, siginfo_t *info, ucontext_t *context)
{
    static const struct sigaction none = {.sa_handler = SIG_DFL};
    unsigned count = atomic_load(&handlers), times = times_passed(context);
    const struct sigaction *next = times < count ? &earlier[count - 1 - times] : &none;
    bool sent = info->si_code <= 0, informed = next->sa_flags & SA_SIGINFO;
    void *link = context->uc_link;
    if (!informed && next->sa_handler == SIG_IGN && sent)
        return;
    if (!informed && (next->sa_handler == SIG_DFL || next->sa_handler == SIG_IGN)) {
        end_process(sent);
        return;
    }
    if (times > 0 || !link)
        context->uc_link = (void *)(passed + times + 1);
    call_handler(next, number, info, context);
    context->uc_link = link;
}

/* How many pages to open for a store to one: where stores come to one page after the other, twice as many each time. */
static size_t pages_to_open(const famsync_memory *memory, size_t page)
{
    size_t most = page == memory->next ? 2 * memory->ahead : 1, count = 1;
    if (most > MOST_AHEAD)
        most = MOST_AHEAD;
    while (count < most && page + count < memory->pages && memory->dirty[page + count] == CLOSED)
        count++;
    return count;
}

/* Makes all pages of a memory writable. */
static bool make_all_writable(const famsync_memory *memory)
{
    return mprotect(memory->at, memory->pages * memory->grain, PROT_READ | PROT_WRITE) == 0;
}

/* Opens all pages of a memory, and leaves it to the next commit to compare each with its committed bytes. */
static bool open_all(famsync_memory *memory)
{
    if (!make_all_writable(memory))
        return false;
    for (size_t page = 0; page < memory->pages; page++)
        if (memory->dirty[page] == CLOSED)
            memory->dirty[page] = OPENED;
    memory->open = (struct span){0, memory->pages};
    memory->noted = memory->pages;
    return true;
}

/* Makes pages writable, and notes them as opened. Pages that are open here and there are as many mappings, of which the
   system allows a process some 65,000: where it refuses another one, all pages are opened, which takes none. */
static bool make_writable(famsync_memory *memory, size_t first, size_t end)
{
    if (mprotect(memory->at + first * memory->grain, (end - first) * memory->grain, PROT_READ | PROT_WRITE) != 0)
        return errno == ENOMEM && open_all(memory);
    note_pages(memory, first, end, OPENED);
    return true;
}

bool open_pages(famsync_memory *memory, size_t first, size_t end)
{
    bool opened = make_writable(memory, first, end);
    if (opened)
        note_pages(memory, first, end, STORED);
    return opened;
}

/* A page that has a note may be closed all the same, as a commit that failed closes it. */
bool open_unstored(famsync_memory *memory, size_t page)
{
    unsigned char note = memory->dirty[page];
    if (!make_writable(memory, page, page + 1))
        return false;
    if (note == STORED)
        memory->dirty[page] = STORED;
    return true;
}

/* Opens the page that was stored to, unless it lies past the file's end, and maybe some behind it. */
static bool open_for_store(famsync_memory *memory, size_t page)
{
    size_t count = page < memory->pages ? pages_to_open(memory, page) : 0;
    if (count == 0 || !make_writable(memory, page, page + count))
        return false;
    memory->dirty[page] = STORED;
    memory->next = page + count;
    memory->ahead = count;
    return true;
}

/* Opens the page that has an address for writing, and notes it. */
static bool open_page(famsync_memory *memory, uintptr_t address)
{
    size_t page = (size_t)(address - (uintptr_t)memory->at) / memory->grain;
    bool opened;
    /* A process that was forked has a copy of the memory, which nobody closes. */
    if (is_forked(memory->handle))
        return page < memory->pages && make_all_writable(memory);
    take(memory->handle);
    opened = open_for_store(memory, page);
    give(memory->handle);
    return opened;
}

/* Whether a thread jumped to the address, which opening the page for writing doesn't help. */
static bool is_jump(const siginfo_t *info, const ucontext_t *context)
{
#if defined(__x86_64__)
    return context->uc_mcontext.gregs[REG_ERR] & 0x10 ||
           (uintptr_t)context->uc_mcontext.gregs[REG_RIP] == (uintptr_t)info->si_addr;
#elif defined(__aarch64__)
    return context->uc_mcontext.pc == (uintptr_t)info->si_addr;
#else
    (void)info;
    (void)context;
    return false;
#endif
}

/* The first store to a page. Of what it calls, mprotect isn't on POSIX's list of what a handler may call; it is a call
   of the kernel and nothing else on the systems that there are. All signals are blocked. */
static void on_fault(int number, siginfo_t *info, void *context)
{
    int error = errno;
    bool stores = info->si_code == SEGV_ACCERR && !is_jump(info, context);
    famsync_memory *memory = stores ? memory_of((uintptr_t)info->si_addr) : NULL;
    if (!memory || !open_page(memory, (uintptr_t)info->si_addr))
        pass_on(number, info, context);
    errno = error;
}

static bool is_ours(const struct sigaction *handler)
{
    return handler->sa_flags & SA_SIGINFO && handler->sa_sigaction == on_fault;
}

/* Whether this handler is the one that a fault is passed to first. */
static bool is_newest(const struct sigaction *handler)
{
    unsigned count = atomic_load(&handlers);
    const struct sigaction *newest = &earlier[count > 0 ? count - 1 : 0];
    if (count == 0 || (handler->sa_flags & SA_SIGINFO) != (newest->sa_flags & SA_SIGINFO))
        return false;
    return handler->sa_flags & SA_SIGINFO ? handler->sa_sigaction == newest->sa_sigaction
                                          : handler->sa_handler == newest->sa_handler;
}

/* Installs the handler, unless it is there: the program may have installed another one since. */
static int install_handler(void)
{
    struct sigaction now, ours = {.sa_flags = SA_SIGINFO | SA_ONSTACK};
    unsigned count = atomic_load(&handlers);
    if (sigaction(SIGSEGV, NULL, &now) != 0)
        return FAMSYNC_SYSTEM;
    if (is_ours(&now))
        return FAMSYNC_OK;
    if (!is_newest(&now)) {
        if (count == MOST_HANDLERS) {
            errno = ENOSPC;
            return FAMSYNC_SYSTEM;
        }
        earlier[count] = now;
        atomic_store(&handlers, count + 1);
    }
    ours.sa_sigaction = on_fault;
    sigfillset(&ours.sa_mask);
    return sigaction(SIGSEGV, &ours, NULL) == 0 ? FAMSYNC_OK : FAMSYNC_SYSTEM;
}

/* The first entry that no memory has, in a new part where all of them are taken; a null pointer if memory is refused.
 */
static struct entry *free_entry(void)
{
    struct part *last = &table, *added;
    for (struct part *part = last; part; last = part, part = atomic_load(&part->next))
        for (unsigned i = 0; i < ENTRIES; i++)
            if (!atomic_load(&part->entry[i].memory))
                return &part->entry[i];
    added = calloc(1, sizeof *added);
    if (!added)
        return NULL;
    atomic_store(&last->next, added);
    return &added->entry[0];
}

static int enter_free_entry(famsync_memory *memory)
{
    memory->entry = free_entry();
    if (!memory->entry)
        return FAMSYNC_NOMEMORY;
    set_entry(memory->entry, (uintptr_t)memory->at, (uintptr_t)memory->at + memory->room, memory);
    return FAMSYNC_OK;
}

int enter_table(famsync_memory *memory)
{
    int code;
    lock_table();
    code = install_handler();
    if (code == FAMSYNC_OK)
        code = enter_free_entry(memory);
    unlock_table();
    return code;
}

void leave_table(famsync_memory *memory)
{
    if (!memory->entry)
        return;
    lock_table();
    set_entry(memory->entry, 0, 0, NULL);
    unlock_table();
}
