/* Rollbacks: all stores since the last msync are undone, in each memory and at one moment, with all writes and lengths,
   and nothing else is. If one can't be made, nothing is undone. */
#include "test.h"

#include <dlfcn.h>
#include <setjmp.h>
#include <stdarg.h>
#include <stdatomic.h>
#include <sys/mman.h>

static unsigned layout;
static struct famsync_options options;

static famsync_memory *memory_of(famsync *handle, const char *file)
{
    famsync_memory *memory;
    WANT_CODE(famsync_memory_open(handle, file, &memory), FAMSYNC_OK);
    return memory;
}

static bool is_all(const unsigned char *at, size_t count, unsigned char value)
{
    for (size_t i = 0; i < count; i++)
        if (at[i] != value)
            return false;
    return true;
}

static void undoes_stores(void)
{
    make_volume_of(layout, 20, "a=65000 b=20000");
    famsync *handle = opened_with(options);
    famsync_memory *a = memory_of(handle, "a"), *b = memory_of(handle, "b");
    unsigned char *at = famsync_memory_at(a), *other = famsync_memory_at(b);
    WANT_CODE(famsync_rollback(handle), FAMSYNC_OK);
    for (unsigned char round = 1; round < 9; round++) {
        memset(at, round, 30000);
        other[19999] = other[round * 2000] = round;
        WANT_CODE(famsync_msync(handle, NULL), FAMSYNC_OK);
        memset(at + 20000, 99, 45000); /* in pages that were committed and in others */
        memset(other, 99, 20000);
        at[65000] = at[65535] = 99; /* past the end */
        WANT_CODE(famsync_write(handle, 0, 5000, "other", 5, NULL), FAMSYNC_OK);
        WANT_CODE(famsync_rollback(handle), FAMSYNC_OK);
        WANT(famsync_memory_dirty(a) == 0 && famsync_memory_dirty(b) == 0);
        WANT(is_all(at, 30000, round) && is_all(at + 30000, 35000, 0));
        WANT(is_all(other, 2000, 0) && other[round * 2000] == round && other[19999] == round);
        if (round % 2 == 0) {
            at[60000] = 5; /* undone by the next rollback, or committed with the round */
            WANT_CODE(famsync_rollback(handle), FAMSYNC_OK);
            WANT(at[60000] == 0);
        }
    }
    at[0] = 77;
    WANT_CODE(famsync_msync(handle, NULL), FAMSYNC_OK);
    at[0] = 78;
    WANT_CODE(famsync_rollback(handle), FAMSYNC_OK);
    WANT_CODE(famsync_memory_close(a), FAMSYNC_OK);
    WANT_CODE(famsync_memory_close(b), FAMSYNC_OK);
    WANT_CODE(famsync_close(handle), FAMSYNC_OK);
    handle = opened();
    at = famsync_memory_at(a = memory_of(handle, "a"));
    WANT(at[0] == 77 && is_all(at + 1, 29999, 8) && is_all(at + 30000, 35000, 0));
    WANT_CODE(famsync_memory_close(a), FAMSYNC_OK);
    WANT_CODE(famsync_close(handle), FAMSYNC_OK);
}

/* More pages than a commit has can be undone. */
static void too_many(void)
{
    make_volume_of(layout, 6, "a=163840");
    famsync *handle = opened_with(options);
    famsync_memory *a = memory_of(handle, "a");
    unsigned char *at = famsync_memory_at(a);
    for (unsigned round = 0; round < 3; round++) {
        memset(at, 7, 163840);
        WANT_CODE(famsync_msync(handle, NULL), FAMSYNC_NOFRAME);
        WANT_CODE(famsync_rollback(handle), FAMSYNC_OK);
        WANT(is_all(at + 4096, 159744, 0) && famsync_memory_dirty(a) == 0);
        at[round] = 1;
        WANT_CODE(famsync_msync(handle, NULL), FAMSYNC_OK);
    }
    WANT(at[0] == 1 && at[1] == 1 && at[2] == 1 && at[3] == 0);
    WANT_CODE(famsync_memory_close(a), FAMSYNC_OK);
    WANT_CODE(famsync_close(handle), FAMSYNC_OK);
}

/* What a file has, read by the library. */
static bool has(famsync *handle, unsigned file, uint64_t from, uint64_t count, unsigned char value)
{
    static unsigned char found[70000];
    size_t done;
    WANT(count <= sizeof found);
    WANT_CODE(famsync_read(handle, file, from, found, count, &done), FAMSYNC_OK);
    return done == count && is_all(found, count, value);
}

static unsigned char written[40000];

static void write_all(famsync *handle, unsigned file, uint64_t from, size_t count, unsigned char value)
{
    memset(written, value, count);
    WANT_CODE(famsync_write(handle, file, from, written, count, NULL), FAMSYNC_OK);
}

/* What famsync_write wrote, without any memory; also over commits that aren't written home yet. */
static void undoes_writes(void)
{
    uint64_t mark;
    make_volume_of(layout, 20, "a=20000 b=8192");
    famsync *handle = opened_with(options);
    WANT_CODE(famsync_rollback(handle), FAMSYNC_OK);
    for (unsigned char round = 1; round < 6; round++) {
        struct famsync_stat stat = {.size = sizeof stat};
        write_all(handle, 0, 4000, 200, round);
        WANT_CODE(famsync_msync(handle, &mark), FAMSYNC_OK);
        WANT(mark == round && famsync_acknowledged(handle) == round);
        write_all(handle, 0, 0, 20000, 99);
        write_all(handle, 1, 100, 5000, 99);
        WANT_CODE(famsync_rollback(handle), FAMSYNC_OK);
        WANT(has(handle, 0, 4000, 200, round) && has(handle, 0, 0, 4000, 0) && has(handle, 0, 4200, 15800, 0));
        WANT(has(handle, 1, 0, 8192, 0) && famsync_acknowledged(handle) == round);
        WANT_CODE(famsync_stat(handle, &stat), FAMSYNC_OK);
        WANT(stat.staged == 0 && stat.unwritten == 0 && stat.commits == round);
        if (round % 2 == 0)
            WANT_CODE(famsync_rollback(handle), FAMSYNC_OK);
    }
    WANT_CODE(famsync_msync(handle, &mark), FAMSYNC_OK); /* of nothing */
    WANT(mark == 6);
    write_all(handle, 1, 0, 8192, 9);
    WANT_CODE(famsync_close(handle), FAMSYNC_OK);
    handle = opened();
    WANT(has(handle, 0, 4000, 200, 5) && has(handle, 0, 0, 4000, 0) && has(handle, 1, 0, 8192, 0));
    WANT_CODE(famsync_close(handle), FAMSYNC_OK);
}

/* Lengths, of files with no memory: grown, cut off, and both. */
static void undoes_lengths(void)
{
    static const uint64_t LENGTHS[][2] = {{0, 0}, {100, 39000}, {39000, 39000}, {20001, 39000}, {40000, 40000}};
    make_volume_of(layout, 20, "a=20000/40000 b=0/8192");
    famsync *handle = opened_with(options);
    write_all(handle, 0, 0, 20000, 1);
    WANT_CODE(famsync_msync(handle, NULL), FAMSYNC_OK);
    for (unsigned i = 0; i < sizeof LENGTHS / sizeof LENGTHS[0]; i++) {
        WANT_CODE(famsync_setlength(handle, "b", 5000), FAMSYNC_OK);
        write_all(handle, 1, 0, 5000, 8);
        for (unsigned j = 0; j < 2; j++)
            WANT_CODE(famsync_setlength(handle, "a", LENGTHS[i][j]), FAMSYNC_OK);
        if (LENGTHS[i][1] > 0)
            write_all(handle, 0, LENGTHS[i][1] - 1, 1, 7);
        WANT_CODE(famsync_rollback(handle), FAMSYNC_OK);
        WANT(famsync_file_length(handle, 0) == 20000 && famsync_file_length(handle, 1) == 0);
        WANT(has(handle, 0, 0, 20000, 1));
    }
    WANT_CODE(famsync_write(handle, 0, 19999, "xy", 2, NULL), FAMSYNC_EINVAL);
    WANT_CODE(famsync_setlength(handle, "a", 39999), FAMSYNC_OK);
    WANT(has(handle, 0, 0, 20000, 1) && has(handle, 0, 20000, 19999, 0));
    WANT_CODE(famsync_msync(handle, NULL), FAMSYNC_OK);
    WANT_CODE(famsync_setlength(handle, "a", 10), FAMSYNC_OK);
    WANT_CODE(famsync_rollback(handle), FAMSYNC_OK);
    WANT_CODE(famsync_close(handle), FAMSYNC_OK);
    handle = opened();
    WANT(famsync_file_length(handle, 0) == 39999 && has(handle, 0, 0, 20000, 1) && has(handle, 0, 20000, 19999, 0));
    WANT_CODE(famsync_close(handle), FAMSYNC_OK);
}

static sigjmp_buf caught;

static void catch_it(int number)
{
    (void)number;
    siglongjmp(caught, 1);
}

/* Whether a byte can be loaded. Tools that serve signals themselves aren't asked. */
static bool is_there(const unsigned char *at, bool expected)
{
    struct sigaction action = {.sa_handler = catch_it}, before;
    volatile bool there = true;
    if (getenv("WITHOUT_SIGNALS"))
        return expected;
    sigaction(SIGSEGV, &action, &before);
    if (sigsetjmp(caught, 1) == 0)
        (void)*(const volatile unsigned char *)at;
    else
        there = false;
    sigaction(SIGSEGV, &before, NULL);
    return there;
}

/* Lengths of a file whose memory is open: it is as it was, in place. */
static void undoes_lengths_of_memory(void)
{
    static const uint64_t LENGTHS[][2] = {{0, 0}, {100, 39000}, {39000, 39000}, {20001, 39000}, {40000, 40000}};
    make_volume_of(layout, 20, "a=20000/40000 b=0/8192 c=8192");
    famsync *handle = opened_with(options);
    famsync_memory *a = memory_of(handle, "a"), *c = memory_of(handle, "c"), *b;
    unsigned char *at = famsync_memory_at(a), *other = famsync_memory_at(c);
    memset(at, 1, 20000);
    WANT_CODE(famsync_msync(handle, NULL), FAMSYNC_OK);
    for (unsigned i = 0; i < sizeof LENGTHS / sizeof LENGTHS[0]; i++) {
        at[0] = other[5000] = 7;
        for (unsigned j = 0; j < 2; j++) {
            WANT_CODE(famsync_setlength(handle, "a", LENGTHS[i][j]), FAMSYNC_OK);
            if (LENGTHS[i][j] > 0)
                at[LENGTHS[i][j] - 1] = 7;
        }
        WANT_CODE(famsync_setlength(handle, "b", 5000), FAMSYNC_OK);
        b = memory_of(handle, "b");
        memset(famsync_memory_at(b), 7, 5000);
        WANT_CODE(famsync_rollback(handle), FAMSYNC_OK);
        WANT(famsync_file_length(handle, 0) == 20000 && famsync_file_length(handle, 1) == 0);
        WANT(famsync_memory_at(a) == at && famsync_memory_length(a) == 20000 && famsync_memory_length(b) == 0);
        WANT(is_all(at, 20000, 1) && is_all(at + 20000, 480, 0) && is_all(other, 8192, 0));
        WANT(famsync_memory_dirty(a) == 0 && famsync_memory_dirty(b) == 0 && famsync_memory_dirty(c) == 0);
        WANT(!is_there(at + 20480, false) && !is_there(at + 39000, false) && is_there(at + 20479, true));
        WANT(!is_there(famsync_memory_at(b), false));
        at[i] = 1; /* the handler's again */
        WANT(famsync_memory_dirty(a) == 1);
        WANT_CODE(famsync_msync(handle, NULL), FAMSYNC_OK);
        WANT_CODE(famsync_memory_close(b), FAMSYNC_OK);
    }
    WANT_CODE(famsync_setlength(handle, "a", 30000), FAMSYNC_OK);
    WANT(is_all(at, 20000, 1) && is_all(at + 20000, 10000, 0));
    at[29999] = 2;
    WANT_CODE(famsync_msync(handle, NULL), FAMSYNC_OK);
    WANT_CODE(famsync_memory_close(a), FAMSYNC_OK);
    WANT_CODE(famsync_memory_close(c), FAMSYNC_OK);
    WANT_CODE(famsync_close(handle), FAMSYNC_OK);
    handle = opened();
    WANT(famsync_file_length(handle, 0) == 30000 && famsync_file_length(handle, 1) == 0);
    WANT(has(handle, 0, 0, 20000, 1) && has(handle, 0, 20000, 9999, 0) && has(handle, 0, 29999, 1, 2));
    WANT_CODE(famsync_close(handle), FAMSYNC_OK);
}

/* Memory that was opened over what famsync_write wrote, and stores of it. */
static void opened_over_writes(void)
{
    make_volume_of(layout, 20, "a=20000 b=8192");
    famsync *handle = opened_with(options);
    write_all(handle, 0, 0, 9000, 1);
    WANT_CODE(famsync_msync(handle, NULL), FAMSYNC_OK);
    write_all(handle, 0, 5000, 9000, 2);
    write_all(handle, 1, 0, 8192, 2);
    famsync_memory *a = memory_of(handle, "a");
    unsigned char *at = famsync_memory_at(a);
    WANT(is_all(at, 5000, 1) && is_all(at + 5000, 9000, 2));
    at[19999] = at[0] = at[6000] = 3;
    WANT_CODE(famsync_rollback(handle), FAMSYNC_OK);
    WANT(is_all(at, 9000, 1) && is_all(at + 9000, 11000, 0) && has(handle, 1, 0, 8192, 0));
    WANT(famsync_memory_dirty(a) == 0);
    at[6000] = 4;
    WANT_CODE(famsync_msync(handle, NULL), FAMSYNC_OK);
    at[6000] = 5;
    WANT_CODE(famsync_rollback(handle), FAMSYNC_OK);
    WANT(at[6000] == 4 && at[5999] == 1 && at[9000] == 0);
    WANT_CODE(famsync_memory_close(a), FAMSYNC_OK);
    WANT_CODE(famsync_close(handle), FAMSYNC_OK);
}

/* Nothing of the volume can be read. */
static atomic_bool unreadable;

ssize_t pread(int file, void *bytes, size_t count, off_t offset)
{
    if (unreadable) {
        errno = EIO;
        return -1;
    }
    return syscall(SYS_pread64, file, bytes, count, offset);
}

/* A rollback that can't be made undoes nothing: what waits can be committed. */
static void fails_whole(void)
{
    make_volume_of(layout, 20, "a=20000/40000 b=8192");
    famsync *handle = opened_with(options);
    famsync_memory *a = memory_of(handle, "a");
    unsigned char *at = famsync_memory_at(a);
    for (unsigned char round = 1; round < 4; round++) {
        at[0] = at[19999] = round;
        write_all(handle, 1, 0, 8192, round);
        WANT_CODE(famsync_setlength(handle, "a", 20000 + round), FAMSYNC_OK);
        unreadable = true;
        WANT_CODE(famsync_rollback(handle), FAMSYNC_DEVICE);
        WANT(errno == EIO);
        unreadable = false;
        WANT(at[0] == round && at[19999] == round && has(handle, 1, 0, 8192, round));
        WANT(famsync_file_length(handle, 0) == 20000u + round);
        WANT(famsync_memory_dirty(a) > 0);
        WANT_CODE(round == 3 ? famsync_rollback(handle) : famsync_msync(handle, NULL), FAMSYNC_OK);
    }
    WANT(at[0] == 2 && at[19999] == 2 && has(handle, 1, 0, 8192, 2));
    WANT(famsync_file_length(handle, 0) == 20002);
    WANT_CODE(famsync_memory_close(a), FAMSYNC_OK);
    WANT_CODE(famsync_close(handle), FAMSYNC_OK);
}

/* A backup that is being made has the last commit, whatever is undone meanwhile. */
static void *back_up(void *argument)
{
    char path[100];
    snprintf(path, sizeof path, "%s/backup.img", folder);
    int file = open(path, O_RDWR | O_CREAT | O_CLOEXEC, 0600);
    WANT_CODE(famsync_backup(argument, file), FAMSYNC_OK);
    WANT(close(file) == 0);
    return NULL;
}

static void beside_a_backup(void)
{
    char path[100];
    pthread_t thread;
    make_volume_of(layout, 20, "a=4000000");
    famsync *handle = opened_with(options);
    write_all(handle, 0, 0, 40000, 1);
    WANT_CODE(famsync_msync(handle, NULL), FAMSYNC_OK);
    WANT(pthread_create(&thread, NULL, back_up, handle) == 0);
    for (unsigned round = 0; round < 20; round++) {
        write_all(handle, 0, round * 40000, 40000, 2);
        WANT_CODE(famsync_rollback(handle), FAMSYNC_OK);
    }
    WANT(pthread_join(thread, NULL) == 0);
    WANT_CODE(famsync_close(handle), FAMSYNC_OK);
    snprintf(path, sizeof path, "%s/backup.img", folder);
    WANT(rename(path, volume) == 0);
    handle = opened();
    WANT(has(handle, 0, 0, 40000, 1) && has(handle, 0, 40000, 40000, 0));
    WANT_CODE(famsync_close(handle), FAMSYNC_OK);
}

static void refusals(void)
{
    make_volume_of(layout, 20, "a=20000 b=8192");
    WANT_CODE(famsync_rollback(NULL), FAMSYNC_ARGUMENT);
    famsync *handle = opened_with(options);
    int status;
    pid_t child = fork();
    if (child == 0)
        _exit(famsync_rollback(handle) == FAMSYNC_FORKED ? 0 : 1);
    WANT(waitpid(child, &status, 0) == child && status == 0);
    WANT_CODE(famsync_close(handle), FAMSYNC_OK);
    handle = opened_with((struct famsync_options){.readonly = 1});
    WANT_CODE(famsync_rollback(handle), FAMSYNC_READONLY);
    WANT_CODE(famsync_close(handle), FAMSYNC_OK);
}

/* What the last block has past the file's end is not seen after a rollback either. */
static void past_the_end(void)
{
    unsigned char block[4096];
    make_volume_of(FIRST_LAYOUT, 20, "a=5000/40000");
    memset(block, 9, sizeof block);
    int file = open(volume, O_WRONLY | O_CLOEXEC);
    WANT(pwrite(file, block, sizeof block, (off_t)(first_home(20) + 2) * 4096) == 4096 && close(file) == 0);
    famsync *handle = opened_with(options);
    famsync_memory *a = memory_of(handle, "a");
    unsigned char *at = famsync_memory_at(a);
    for (unsigned char round = 1; round < 4; round++) {
        memset(at + 4090, round, 1000);
        WANT_CODE(famsync_rollback(handle), FAMSYNC_OK);
        WANT(is_all(at, 4096, 0) && is_all(at + 4096, 904, 9) && is_all(at + 5000, 3192, 0));
        WANT(famsync_memory_dirty(a) == 0);
    }
    WANT_CODE(famsync_setlength(handle, "a", 9000), FAMSYNC_OK);
    WANT(is_all(at + 4096, 904, 9) && is_all(at + 5000, 4000, 0));
    WANT_CODE(famsync_memory_close(a), FAMSYNC_OK);
    WANT_CODE(famsync_close(handle), FAMSYNC_OK);
}

/* Workers count in one page after the other, in turn of both files, while others commit and roll back. */
#define WORKERS 3u
#define STEPS 6u

static unsigned char *memory_at[2];
static atomic_bool stopped;

static size_t place_of(unsigned worker, unsigned step)
{
    return ((size_t)(step / 2) * WORKERS + worker) * 4096 + 8 * worker;
}

static void *count_up(void *argument)
{
    unsigned worker = (unsigned)(uintptr_t)argument;
    for (uint64_t round = 1; !atomic_load(&stopped); round++)
        for (unsigned step = 0; step < STEPS; step++) {
            *(volatile uint64_t *)(void *)(memory_at[step % 2] + place_of(worker, step)) = round;
            usleep(20); /* so that a call of the others comes within a round */
        }
    return NULL;
}

/* What is committed, as a backup has it. */
static void commit(famsync *handle, uint64_t counts[WORKERS][STEPS])
{
    char path[100];
    snprintf(path, sizeof path, "%s/backup.img", folder);
    int file = open(path, O_RDWR | O_CREAT | O_CLOEXEC, 0600);
    WANT_CODE(famsync_msync(handle, NULL), FAMSYNC_OK);
    WANT_CODE(famsync_backup(handle, file), FAMSYNC_OK);
    for (unsigned worker = 0; worker < WORKERS; worker++)
        for (unsigned step = 0; step < STEPS; step++) {
            off_t home = (off_t)(first_home(24) + 1 + (step % 2) * 10) * 4096;
            WANT(pread(file, &counts[worker][step], 8, home + (off_t)place_of(worker, step)) == 8);
        }
    WANT(close(file) == 0);
}

/* Since the rollback a worker has counted in some pages, one after the other, and in all others nothing is left of what
   it counted before. Answers whether it wasn't in all. */
static bool judge(const uint64_t before[STEPS], const uint64_t after[STEPS])
{
    unsigned changed = 0, begins = 0, first = 0;
    for (unsigned step = 0; step < STEPS; step++) {
        unsigned previous = (step + STEPS - 1) % STEPS;
        bool changes = after[step] != before[step];
        changed += changes;
        if (changes && after[previous] == before[previous]) {
            begins++;
            first = step;
        }
    }
    if (changed == 0 || changed == STEPS)
        return false;
    WANT(begins == 1);
    for (unsigned i = 0; i < changed; i++)
        WANT(after[(first + i) % STEPS] == after[first] + (first + i >= STEPS));
    return true;
}

static void threads(void)
{
    uint64_t before[WORKERS][STEPS], after[WORKERS][STEPS];
    pthread_t thread[WORKERS];
    unsigned parted = 0;
    make_volume_of(FIRST_LAYOUT, 24, "a=40960 b=40960");
    famsync *handle = opened_with(options);
    famsync_memory *memory[2] = {memory_of(handle, "a"), memory_of(handle, "b")};
    for (unsigned i = 0; i < 2; i++)
        memory_at[i] = famsync_memory_at(memory[i]);
    atomic_store(&stopped, false);
    for (uintptr_t i = 0; i < WORKERS; i++)
        WANT(pthread_create(&thread[i], NULL, count_up, (void *)i) == 0);
    for (unsigned round = 0; round < 25; round++) {
        commit(handle, before);
        usleep(round % 4 * 300);
        WANT_CODE(famsync_rollback(handle), FAMSYNC_OK);
        commit(handle, after);
        for (unsigned worker = 0; worker < WORKERS; worker++)
            parted += judge(before[worker], after[worker]);
    }
    atomic_store(&stopped, true);
    for (unsigned i = 0; i < WORKERS; i++)
        WANT(pthread_join(thread[i], NULL) == 0);
    for (unsigned i = 0; i < 2; i++)
        WANT_CODE(famsync_memory_close(memory[i]), FAMSYNC_OK);
    WANT_CODE(famsync_close(handle), FAMSYNC_OK);
    printf("clients/c: rollback: %u of %u were within a round\n", parted, 25 * WORKERS);
    fflush(stdout);
}

/* Each call of the system that a rollback makes is refused. */
enum { NONE, MMAP, MADVISE, MREMAP };

static int refused;

BEFORE_SANITIZERS void *mmap(void *at, size_t length, int protection, int flags, int file, off_t offset)
{
    if (refused == MMAP) {
        errno = ENOMEM;
        return MAP_FAILED;
    }
    return other_mmap(at, length, protection, flags, file, offset);
}

BEFORE_SANITIZERS int madvise(void *at, size_t length, int advice)
{
    static int (*next)(void *, size_t, int);
    if (refused == MADVISE) {
        errno = ENOMEM;
        return -1;
    }
    if (!next)
        *(void **)&next = dlsym(RTLD_NEXT, "madvise");
    return next(at, length, advice);
}

BEFORE_SANITIZERS void *mremap(void *at, size_t length, size_t new_length, int flags, ...)
{
    if (refused == MREMAP) {
        errno = ENOMEM;
        return MAP_FAILED;
    }
    va_list more;
    va_start(more, flags);
    void *to = va_arg(more, void *);
    va_end(more);
    return (void *)syscall(SYS_mremap, at, length, new_length, flags, to);
}

/* After a part alone was undone, the session commits once another rollback has undone all. */
static void refused_by_the_system(bool writes)
{
    make_volume_of(FIRST_LAYOUT, 20, "a=65536/131072 b=8192 c=8192");
    for (int call = MMAP; call <= MREMAP; call++) {
        famsync *handle = opened_with(options);
        famsync_memory *a = memory_of(handle, "a"), *b = memory_of(handle, "b");
        unsigned char *at = famsync_memory_at(a), *other = famsync_memory_at(b);
        bool torn = call == (options.resident ? MREMAP : MADVISE);
        at[0] = other[5000] = 1;
        if (writes) {
            write_all(handle, 2, 0, 8192, 1);
            WANT_CODE(famsync_setlength(handle, "a", 100000), FAMSYNC_OK);
        }
        refused = call;
        int code = famsync_rollback(handle);
        refused = NONE;
        WANT_CODE(code, torn ? FAMSYNC_SYSTEM : call == MMAP && options.resident ? FAMSYNC_NOMEMORY : FAMSYNC_OK);
        WANT(at[0] == (code == FAMSYNC_OK ? 0 : 1) && other[5000] == (code == FAMSYNC_OK ? 0 : 1));
        WANT_CODE(famsync_msync(handle, NULL), torn ? FAMSYNC_TORN : FAMSYNC_OK);
        WANT(famsync_file_length(handle, 0) == famsync_memory_length(a) && has(handle, 0, 65530, 6, 0));
        at[4096] = other[0] = 2;
        WANT_CODE(famsync_rollback(handle), FAMSYNC_OK);
        if (code == FAMSYNC_NOMEMORY) /* nothing was undone, and so it was committed */
            at[0] = other[5000] = 0;
        WANT(is_all(at, 65536, 0) && is_all(other, 8192, 0));
        if (code != FAMSYNC_NOMEMORY)
            WANT(famsync_file_length(handle, 0) == 65536 && has(handle, 2, 0, 8192, 0));
        WANT_CODE(famsync_setlength(handle, "a", 65536), FAMSYNC_OK);
        write_all(handle, 2, 0, 8192, 0);
        at[70] = 3;
        WANT_CODE(famsync_msync(handle, NULL), FAMSYNC_OK);
        at[70] = 0;
        WANT_CODE(famsync_msync(handle, NULL), FAMSYNC_OK);
        WANT_CODE(famsync_memory_close(a), FAMSYNC_OK);
        WANT_CODE(famsync_memory_close(b), FAMSYNC_OK);
        WANT_CODE(famsync_close(handle), FAMSYNC_OK);
    }
}

int main(void)
{
    for (int way = 0; way < 4; way++) {
        options = (struct famsync_options){
            .size = sizeof options, .resident = way % 2, .foreground = way / 2, .budget = way < 2 ? 0 : 1};
        for (layout = FIRST_LAYOUT; layout <= LAYOUTS; layout++) {
            undoes_stores();
            too_many();
            undoes_writes();
            undoes_lengths();
            undoes_lengths_of_memory();
            opened_over_writes();
            fails_whole();
            beside_a_backup();
            refusals();
        }
        past_the_end();
        threads();
        refused_by_the_system(false);
        refused_by_the_system(true);
    }
    printf("clients/c: rollback: as it should be\n");
    return 0;
}
