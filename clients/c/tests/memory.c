/* Plain memory: stores are kept by an msync and by nothing else, in whole pages or part of one; faults that aren't its
   own go to the handler that was there; more pages than a commit has are refused before any is stored. */
#include "test.h"

#include <setjmp.h>
#include <sys/mman.h>

static sigjmp_buf back;
static volatile sig_atomic_t others;

static void other_handler(int number)
{
    (void)number;
    others = others + 1;
    siglongjmp(back, 1);
}

static famsync_memory *memory_of(famsync *handle, const char *file)
{
    famsync_memory *memory;
    WANT_CODE(famsync_memory_open(handle, file, &memory), FAMSYNC_OK);
    return memory;
}

static void stores_are_kept(void)
{
    make_volume(16, "a=20000 b=5000");
    famsync *handle = opened();
    famsync_memory *a = memory_of(handle, "a"), *b = memory_of(handle, "b"), *again;
    unsigned char *at = famsync_memory_at(a), *other = famsync_memory_at(b);
    WANT(famsync_memory_length(a) == 20000 && famsync_memory_length(b) == 5000);
    WANT_CODE(famsync_memory_open(handle, "a", &again), FAMSYNC_OVERLAP);
    WANT_CODE(famsync_memory_open(handle, "c", &again), FAMSYNC_NOFILE);
    WANT(again == NULL && famsync_memory_dirty(a) == 0);
    for (size_t i = 0; i < 20000; i++)
        WANT(at[i] == 0);
    at[0] = 1;
    at[4095] = 2;
    at[4096] = 3;
    at[19999] = 4;
    other[4999] = 5;
    WANT(famsync_memory_dirty(a) == 3 && famsync_memory_dirty(b) == 1);
    uint64_t mark = 0;
    WANT_CODE(famsync_msync(handle, &mark), FAMSYNC_OK);
    WANT(mark == 1 && famsync_memory_dirty(a) == 0);
    at[1] = 6;
    WANT(famsync_memory_dirty(a) == 1);
    WANT_CODE(famsync_close(handle), FAMSYNC_ARGUMENT);
    WANT_CODE(famsync_memory_close(a), FAMSYNC_OK);
    WANT_CODE(famsync_memory_close(b), FAMSYNC_OK);
    WANT_CODE(famsync_close(handle), FAMSYNC_OK);
}

/* By the next session. */
static void stores_are_found(void)
{
    famsync *handle = opened();
    famsync_memory *a = memory_of(handle, "a"), *b = memory_of(handle, "b");
    unsigned char *at = famsync_memory_at(a), *other = famsync_memory_at(b);
    WANT(at[0] == 1 && at[1] == 0 && at[4095] == 2 && at[4096] == 3 && at[19999] == 4 && other[4999] == 5);
    /* a read may go into plain memory, also of a file that has none */
    WANT_CODE(famsync_read(handle, 0, 4096, at + 8192, 2, NULL), FAMSYNC_OK);
    WANT(at[8192] == 3 && at[8193] == 0 && famsync_memory_dirty(a) == 1);
    WANT_CODE(famsync_msync(handle, NULL), FAMSYNC_OK);
    WANT_CODE(famsync_memory_close(b), FAMSYNC_OK);
    WANT_CODE(famsync_read(handle, 1, 4990, at + 12000, 10, NULL), FAMSYNC_OK);
    WANT(at[12009] == 5 && famsync_memory_dirty(a) == 1);
    b = memory_of(handle, "b");
    WANT_CODE(famsync_memory_close(a), FAMSYNC_OK);
    WANT_CODE(famsync_memory_close(b), FAMSYNC_OK);
    WANT_CODE(famsync_close(handle), FAMSYNC_OK);
}

/* Reads and writes of a file whose memory is open use that. */
static void both_ways(void)
{
    unsigned char bytes[9000], found[9000];
    size_t done;
    make_volume(6, "a=20000 b=5000");
    famsync *handle = opened();
    memset(bytes, 7, sizeof bytes);
    WANT_CODE(famsync_write(handle, 0, 10, bytes, 10, NULL), FAMSYNC_OK);
    famsync_memory *a = memory_of(handle, "a");
    unsigned char *at = famsync_memory_at(a);
    WANT(at[9] == 0 && at[10] == 7 && at[19] == 7 && at[20] == 0 && famsync_memory_dirty(a) == 0);
    at[4096] = 8;
    WANT_CODE(famsync_read(handle, 0, 4096, found, 2, &done), FAMSYNC_OK);
    WANT(done == 2 && found[0] == 8 && found[1] == 0);
    WANT_CODE(famsync_write(handle, 0, 8190, bytes, 9000, &done), FAMSYNC_OK); /* pages 1 to 4 */
    WANT(done == 9000 && at[8189] == 0 && at[8190] == 7 && at[17189] == 7 && at[17190] == 0);
    WANT(famsync_memory_dirty(a) == 4);
    /* from this memory to itself, and short at the end */
    WANT_CODE(famsync_write(handle, 0, 8000, at + 8100, 9000, NULL), FAMSYNC_OK);
    WANT(at[8000] == 0 && at[8089] == 0 && at[8090] == 7 && at[16999] == 7);
    WANT_CODE(famsync_read(handle, 0, 19990, at + 17000, 30, &done), FAMSYNC_OK);
    WANT(done == 10);
    WANT_CODE(famsync_write(handle, 0, 19999, bytes, 2, &done), FAMSYNC_EINVAL);
    WANT(done == 0 && at[19999] == 0);
    WANT_CODE(famsync_msync(handle, NULL), FAMSYNC_OK);
    WANT_CODE(famsync_memory_close(a), FAMSYNC_OK);
    WANT_CODE(famsync_read(handle, 0, 8000, found, 9000, NULL), FAMSYNC_OK);
    WANT(found[0] == 0 && found[90] == 7 && found[8999] == 7);
    WANT_CODE(famsync_close(handle), FAMSYNC_OK);
}

/* More pages than a commit has are opened by no write. What was written and wasn't committed goes with the memory. */
static void too_much_at_once(void)
{
    unsigned char bytes[4 * 4096] = {1}, byte;
    size_t done;
    make_volume(3, "a=20000");
    famsync *handle = opened();
    famsync_memory *a = memory_of(handle, "a");
    WANT_CODE(famsync_write(handle, 0, 0, bytes, sizeof bytes, &done), FAMSYNC_NOFRAME);
    WANT(done == 0 && famsync_memory_dirty(a) == 0 && ((unsigned char *)famsync_memory_at(a))[0] == 0);
    WANT_CODE(famsync_write(handle, 0, 0, bytes, 3 * 4096, &done), FAMSYNC_OK);
    WANT(done == 3 * 4096 && famsync_memory_dirty(a) == 3);
    WANT_CODE(famsync_memory_close(a), FAMSYNC_OK);
    WANT_CODE(famsync_read(handle, 0, 0, &byte, 1, NULL), FAMSYNC_OK);
    WANT(byte == 0);
    WANT_CODE(famsync_close(handle), FAMSYNC_OK);
}

static void other_faults(void)
{
    struct sigaction action = {.sa_handler = other_handler}, now;
    char *volatile elsewhere = mmap(NULL, 4096, PROT_READ, MAP_PRIVATE | MAP_ANONYMOUS, -1, 0);
    /* it was installed after the library's, and gives it back */
    WANT(sigaction(SIGSEGV, &action, &now) == 0);
    if (sigsetjmp(back, 1) == 0)
        elsewhere[0] = 1;
    WANT(others == 1);
    WANT(sigaction(SIGSEGV, &now, NULL) == 0);
    munmap(elsewhere, 4096);
    /* a process whose fault is nobody's ends by it */
    pid_t child = fork();
    if (child == 0) {
        alarm(20);
        signal(SIGABRT, SIG_DFL);
        elsewhere = mmap(NULL, 4096, PROT_READ, MAP_PRIVATE | MAP_ANONYMOUS, -1, 0);
        close(2);
        elsewhere[0] = 1;
        _exit(0);
    }
    int status;
    WANT(waitpid(child, &status, 0) == child && !(WIFEXITED(status) && WEXITSTATUS(status) == 0));
    WANT(!(WIFSIGNALED(status) && WTERMSIG(status) == SIGALRM));
}

static void handler_before(void)
{
    /* In a process where another handler was there before the first memory was opened. */
    pid_t child = fork();
    if (child == 0) {
        struct sigaction action = {.sa_handler = other_handler};
        alarm(60);
        WANT(sigaction(SIGSEGV, &action, NULL) == 0);
        famsync *handle = opened();
        famsync_memory *a = memory_of(handle, "a");
        unsigned char *at = famsync_memory_at(a);
        char *volatile elsewhere = mmap(NULL, 4096, PROT_READ, MAP_PRIVATE | MAP_ANONYMOUS, -1, 0);
        for (int i = 1; i <= 3; i++) {
            if (sigsetjmp(back, 1) == 0)
                elsewhere[0] = 1;
            WANT(others == i);
            at[i * 4096] = (unsigned char)i;
        }
        /* one that was sent, too */
        if (sigsetjmp(back, 1) == 0)
            raise(SIGSEGV);
        WANT(others == 4 && famsync_memory_dirty(a) == 3);
        munmap(elsewhere, 4096);
        WANT_CODE(famsync_memory_close(a), FAMSYNC_OK);
        WANT_CODE(famsync_close(handle), FAMSYNC_OK);
        exit(0);
    }
    int status;
    WANT(waitpid(child, &status, 0) == child && WIFEXITED(status) && WEXITSTATUS(status) == 0);
}

static void past_the_end(void)
{
    /* A store just past the memory, or before it, isn't the library's; one past the file's end, in its last page, is
       memory that isn't kept. */
    pid_t child = fork();
    if (child == 0) {
        struct sigaction action = {.sa_handler = other_handler};
        alarm(60);
        WANT(sigaction(SIGSEGV, &action, NULL) == 0);
        famsync *handle = opened();
        famsync_memory *b = memory_of(handle, "b");
        unsigned char *volatile at = famsync_memory_at(b);
        at[4999] = 5;
        at[5000] = at[8191] = 7;
        if (sigsetjmp(back, 1) == 0)
            at[8192] = 7;
        WANT(others == 1);
        if (sigsetjmp(back, 1) == 0)
            at[-1] = 7;
        WANT(others == 2);
        WANT_CODE(famsync_msync(handle, NULL), FAMSYNC_OK);
        WANT_CODE(famsync_memory_close(b), FAMSYNC_OK);
        b = memory_of(handle, "b");
        at = famsync_memory_at(b);
        WANT(at[4999] == 5 && at[5000] == 0 && at[8191] == 0);
        WANT_CODE(famsync_memory_close(b), FAMSYNC_OK);
        WANT_CODE(famsync_close(handle), FAMSYNC_OK);
        raise(SIGKILL); /* so that valgrind, which has its own word on these stores, doesn't say how it ends */
    }
    int status;
    WANT(waitpid(child, &status, 0) == child && WIFSIGNALED(status) && WTERMSIG(status) == SIGKILL);
}

static void too_many_pages(void)
{
    make_volume(8, "a=81920");
    famsync *handle = opened();
    famsync_memory *a = memory_of(handle, "a");
    unsigned char *at = famsync_memory_at(a);
    for (int i = 0; i < 8; i++)
        at[i * 2 * 4096] = 1;
    WANT_CODE(famsync_msync(handle, NULL), FAMSYNC_OK);
    for (int i = 0; i < 9; i++)
        at[i * 2 * 4096] = 2;
    WANT(famsync_memory_dirty(a) == 9);
    WANT_CODE(famsync_msync(handle, NULL), FAMSYNC_NOFRAME);
    WANT(famsync_memory_dirty(a) == 9 && famsync_acknowledged(handle) == 1);
    WANT_CODE(famsync_msync(handle, NULL), FAMSYNC_NOFRAME);
    WANT_CODE(famsync_memory_close(a), FAMSYNC_OK);
    /* nothing of it was stored */
    WANT_CODE(famsync_msync(handle, NULL), FAMSYNC_OK);
    WANT_CODE(famsync_close(handle), FAMSYNC_OK);
    handle = opened();
    a = memory_of(handle, "a");
    at = famsync_memory_at(a);
    for (int i = 0; i < 8; i++)
        WANT(at[i * 2 * 4096] == 1);
    WANT(at[8 * 2 * 4096] == 0);
    WANT_CODE(famsync_memory_close(a), FAMSYNC_OK);
    WANT_CODE(famsync_close(handle), FAMSYNC_OK);
}

/* Of the same volume. Pages that famsync_write wrote count, too, each page once. Where all together are too many, none
   is stored: the memory can be closed, and the rest is committed. */
static void too_many_with_stores(void)
{
    static unsigned char bytes[4 * 4096], found[4 * 4096];
    famsync *handle = opened();
    memset(bytes, 9, sizeof bytes);
    WANT_CODE(famsync_write(handle, 0, 16 * 4096, bytes, sizeof bytes, NULL), FAMSYNC_OK);
    famsync_memory *a = memory_of(handle, "a");
    unsigned char *at = famsync_memory_at(a);
    for (int i = 0; i < 5; i++)
        at[i * 2 * 4096] = 3;
    for (int i = 0; i < 2; i++) {
        WANT_CODE(famsync_msync(handle, NULL), FAMSYNC_NOFRAME);
        WANT(famsync_memory_dirty(a) == 5 && at[8 * 4096] == 3);
    }
    WANT_CODE(famsync_memory_close(a), FAMSYNC_OK);
    WANT_CODE(famsync_msync(handle, NULL), FAMSYNC_OK);
    WANT_CODE(famsync_read(handle, 0, 16 * 4096, found, sizeof found, NULL), FAMSYNC_OK);
    WANT(memcmp(found, bytes, sizeof found) == 0);
    WANT_CODE(famsync_close(handle), FAMSYNC_OK);
    handle = opened();
    a = memory_of(handle, "a");
    at = famsync_memory_at(a);
    for (int i = 0; i < 8; i++)
        WANT(at[i * 2 * 4096] == 1);
    WANT(at[16 * 4096] == 9 && at[20 * 4096 - 1] == 9);
    WANT_CODE(famsync_memory_close(a), FAMSYNC_OK);
    WANT_CODE(famsync_close(handle), FAMSYNC_OK);
}

/* As many as go into a commit, by each way: pages that both have stored to count once, those that a file grows by
   count, and those that are cut off don't. */
static void as_many_as_go(unsigned layout)
{
    static const unsigned char bytes[4 * 4096] = {1};
    make_volume_of(layout, 9, "a=81920 b=5000/90000");
    famsync *handle = opened();
    unsigned grown = 2, most = famsync_frames(handle);
    for (unsigned round = 1; round < 6; round++) {
        WANT_CODE(famsync_write(handle, 0, 4096, bytes, sizeof bytes, NULL), FAMSYNC_OK); /* pages 1 to 4 */
        famsync_memory *a = memory_of(handle, "a");
        unsigned char *at = famsync_memory_at(a);
        /* and two of the other file, or three */
        WANT_CODE(famsync_setlength(handle, "b", 5000 + 4096 * (uint64_t)round), FAMSYNC_OK);
        WANT_CODE(famsync_setlength(handle, "b", 5000 + 4096 * (uint64_t)round + 8192), FAMSYNC_OK);
        WANT_CODE(famsync_setlength(handle, "b", 5000 + 4096 * (uint64_t)round), FAMSYNC_OK);
        for (unsigned page = 3; page < most - grown; page++) /* with pages 1 and 2 that is all but one */
            at[page * 4096] = (unsigned char)round;
        at[18 * 4096] = at[19 * 4096] = (unsigned char)round; /* which is one too many */
        WANT_CODE(famsync_msync(handle, NULL), FAMSYNC_NOFRAME);
        WANT_CODE(famsync_memory_close(a), FAMSYNC_OK);
        a = memory_of(handle, "a");
        at = famsync_memory_at(a);
        for (unsigned page = 3; page < most - grown; page++)
            at[page * 4096] = (unsigned char)round;
        at[19 * 4096] = (unsigned char)round;
        WANT_CODE(famsync_msync(handle, NULL), FAMSYNC_OK);
        WANT_CODE(famsync_memory_close(a), FAMSYNC_OK);
    }
    WANT_CODE(famsync_close(handle), FAMSYNC_OK);
}

/* Memory is opened beside as many pages as a commit can have; what is stored to it then is too much. */
static void no_frames(void)
{
    static const unsigned char bytes[4 * 4096] = {1};
    famsync_memory *b;
    make_volume(4, "a=16384 b=5000");
    famsync *handle = opened();
    WANT_CODE(famsync_write(handle, 0, 0, bytes, sizeof bytes, NULL), FAMSYNC_OK);
    b = memory_of(handle, "b");
    ((unsigned char *)famsync_memory_at(b))[0] = 1;
    WANT_CODE(famsync_msync(handle, NULL), FAMSYNC_NOFRAME);
    WANT_CODE(famsync_memory_close(b), FAMSYNC_OK);
    WANT_CODE(famsync_msync(handle, NULL), FAMSYNC_OK);
    WANT_CODE(famsync_memory_close(memory_of(handle, "b")), FAMSYNC_OK);
    WANT_CODE(famsync_close(handle), FAMSYNC_OK);
}

/* Stores that come to one page after the other open some pages ahead; those that weren't stored to don't count. */
static void rising_stores(void)
{
    make_volume(64, "a=819200");
    famsync *handle = opened();
    famsync_memory *a = memory_of(handle, "a");
    unsigned char *at = famsync_memory_at(a);
    for (size_t round = 1; round <= 3; round++) {
        for (size_t count = 1; count <= 64; count += 9) {
            size_t first = round * 40 + count % 7;
            for (size_t page = first; page < first + count; page++)
                at[page * 4096 + count] = (unsigned char)(round + count);
            WANT(famsync_memory_dirty(a) == count);
            at[(first + count) * 4096 - 1] = 1;
            WANT(famsync_memory_dirty(a) == count);
            WANT_CODE(famsync_msync(handle, NULL), FAMSYNC_OK);
            WANT(famsync_memory_dirty(a) == 0);
        }
        /* what is refused counts as it did, and what was committed before doesn't */
        for (size_t page = 0; page < 65; page++)
            at[page * 4096 + 4000] = (unsigned char)round;
        WANT_CODE(famsync_msync(handle, NULL), FAMSYNC_NOFRAME);
        WANT(famsync_memory_dirty(a) == 65);
        WANT_CODE(famsync_memory_close(a), FAMSYNC_OK);
        a = memory_of(handle, "a");
        at = famsync_memory_at(a);
        WANT(famsync_memory_dirty(a) == 0 && at[4000] == 0 && at[(round * 40 + 1) * 4096 + 64] == round + 64);
    }
    WANT_CODE(famsync_memory_close(a), FAMSYNC_OK);
    WANT_CODE(famsync_close(handle), FAMSYNC_OK);
}

static void many_handles(void)
{
    /* opened and closed again, so that places in the handler's table are used again */
    make_volume(8, "a=8192 b=8192");
    for (int i = 1; i <= 30; i++) {
        famsync *handle = opened();
        famsync_memory *a = memory_of(handle, "a"), *b = memory_of(handle, "b");
        int *first = famsync_memory_at(a), *second = famsync_memory_at(b);
        WANT(*first == i - 1 && *second == i - 1);
        *first = *second = i;
        WANT_CODE(famsync_msync(handle, NULL), FAMSYNC_OK);
        WANT_CODE(famsync_memory_close(a), FAMSYNC_OK);
        *second = 99;
        WANT_CODE(famsync_memory_close(b), FAMSYNC_OK);
        WANT_CODE(famsync_close(handle), FAMSYNC_OK);
    }
}

/* What the library's core has of memory, in a session of which nothing is left to be written. */
static uint64_t memory_of_core(famsync *handle)
{
    struct famsync_stat stat = {.size = sizeof stat};
    do {
        WANT_CODE(famsync_stat(handle, &stat), FAMSYNC_OK);
        usleep(1000);
    } while (stat.unwritten > 0);
    return stat.memory;
}

/* Memory that is opened and closed takes nothing of the core's for good. */
static void opened_again(void)
{
    uint64_t first = 0;
    make_volume_of(FIRST_LAYOUT, 8, "a=4000/40000");
    famsync *handle = opened();
    for (unsigned round = 0; round < 4; round++) {
        for (uint64_t length = 1; length < 40000; length += 1000) {
            WANT_CODE(famsync_setlength(handle, "a", length), FAMSYNC_OK);
            famsync_memory *a = memory_of(handle, "a");
            WANT(famsync_memory_length(a) == length);
            ((unsigned char *)famsync_memory_at(a))[length - 1] = 1;
            WANT_CODE(famsync_msync(handle, NULL), FAMSYNC_OK);
            WANT_CODE(famsync_memory_close(a), FAMSYNC_OK);
        }
        if (round == 0)
            first = memory_of_core(handle);
    }
    WANT(memory_of_core(handle) <= first + 16 * 4096);
    WANT_CODE(famsync_close(handle), FAMSYNC_OK);
}

/* Five volumes with all files that one can have, and plain memory of each of them at once. */
static void many_memories(void)
{
    enum { HANDLES = 5, FILES = 64 };
    static famsync *handle[HANDLES];
    static famsync_memory *memory[HANDLES][FILES];
    char files[FILES * 20] = "";
    for (int file = 0; file < FILES; file++)
        snprintf(files + strlen(files), 20, "f%d=4096 ", file);
    for (int i = 0; i < HANDLES; i++) {
        char moved[120];
        make_volume(64, files);
        snprintf(moved, sizeof moved, "%s/%d.img", folder, i);
        WANT(rename(volume, moved) == 0);
        WANT_CODE(famsync_open(moved, NULL, &handle[i]), FAMSYNC_OK);
        for (int file = 0; file < FILES; file++)
            memory[i][file] = memory_of(handle[i], famsync_file_name(handle[i], (unsigned)file));
    }
    for (int round = 1; round <= 2; round++)
        for (int i = 0; i < HANDLES; i++) {
            for (int file = 0; file < FILES; file++) {
                ((unsigned char *)famsync_memory_at(memory[i][file]))[0] = (unsigned char)round;
                WANT(famsync_memory_dirty(memory[i][file]) == 1);
            }
            WANT_CODE(famsync_msync(handle[i], NULL), FAMSYNC_OK);
        }
    for (int i = 0; i < HANDLES; i++) {
        for (int file = 0; file < FILES; file++)
            WANT_CODE(famsync_memory_close(memory[i][file]), FAMSYNC_OK);
        WANT_CODE(famsync_close(handle[i]), FAMSYNC_OK);
    }
}

int main(void)
{
    make_volume(16, "a=20000 b=5000");
    handler_before();
    past_the_end();
    stores_are_kept();
    stores_are_found();
    both_ways();
    too_much_at_once();
    other_faults();
    too_many_pages();
    too_many_with_stores();
    for (unsigned layout = FIRST_LAYOUT; layout <= LAYOUTS; layout++)
        as_many_as_go(layout);
    no_frames();
    rising_stores();
    many_handles();
    many_memories();
    opened_again();
    printf("clients/c: memory: as it should be\n");
    return 0;
}
