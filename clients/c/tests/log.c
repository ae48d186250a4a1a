/* Sessions with a log, in layouts 5 and 6: many commits round a small ring; how many syncs a commit makes, and how
   often a page is written home; how much memory that takes; and what is found after a write, a sync or a read failed,
   and after a kill. */
#include "test.h"

#include <stdatomic.h>
#include <sys/mman.h>
#include <sys/uio.h>

/* A ring of 64 blocks: a commit has at most 62 records, of which one is of the lengths. */
#define SLOTS 62u
#define RING 64u
#define PAGES 300u
#define A_MOST (PAGES * 4096u)

static unsigned layout;
static famsync *handle;
static bool is_slow; /* in a tool that is slow, less is tried */

/* The calls of the system, and which of them fails: the one with this number, from 1 on; 0 for none. */
static atomic_uint writes, syncs, made, fails_at, reads, fails_read;
static _Atomic uint64_t home_blocks; /* how many blocks were written behind the log */
static atomic_bool fails_home;       /* reads of files' blocks fail */

/* Whether this call on the volume's file fails. */
static bool fails(void)
{
    if (atomic_fetch_add(&made, 1) + 1 != atomic_load(&fails_at))
        return false;
    errno = EIO;
    return true;
}

ssize_t pwritev(int file, const struct iovec *range, int count, off_t offset)
{
    size_t length = 0;
    for (int i = 0; i < count; i++)
        length += range[i].iov_len;
    atomic_fetch_add(&writes, 1);
    if (offset >= (off_t)(4 + RING) * 4096)
        atomic_fetch_add(&home_blocks, length / 4096);
    return fails() ? -1 : syscall(SYS_pwritev, file, range, count, offset, 0);
}

int fdatasync(int file)
{
    atomic_fetch_add(&syncs, 1);
    return fails() ? -1 : (int)syscall(SYS_fdatasync, file);
}

ssize_t pread(int file, void *bytes, size_t count, off_t offset)
{
    unsigned every = atomic_load(&fails_read);
    bool is_home = offset >= (off_t)(5 + RING) * 4096;
    if ((is_home && atomic_load(&fails_home)) || (every > 0 && atomic_fetch_add(&reads, 1) % every == every - 1)) {
        errno = EIO;
        return -1;
    }
    return syscall(SYS_pread64, file, bytes, count, offset);
}

static void reset(void)
{
    atomic_store(&writes, 0);
    atomic_store(&syncs, 0);
    atomic_store(&made, 0);
    atomic_store(&fails_at, 0);
    atomic_store(&home_blocks, 0);
}

static unsigned below(unsigned most)
{
    return (unsigned)rand() % most;
}

/* What the files are, as they were last set and as they were last committed. */
struct model {
    unsigned char a[A_MOST], b[9000];
    size_t length; /* of `b` */
};

static struct model now, committed;

static void make(void)
{
    char files[60];
    snprintf(files, sizeof files, "a=%u b=0/9000", A_MOST);
    make_volume_of(layout, SLOTS, files);
    memset(&now, 0, sizeof now);
    committed = now;
}

/* A session that opens plain memory of the first file, or doesn't. */
static famsync_memory *memory;

static void begin(int foreground, bool mapped)
{
    memory = NULL;
    handle = opened_with((struct famsync_options){.size = sizeof(struct famsync_options), .foreground = foreground});
    if (mapped)
        WANT_CODE(famsync_memory_open(handle, "a", &memory), FAMSYNC_OK);
}

static void end(void)
{
    WANT_CODE(famsync_memory_close(memory), FAMSYNC_OK);
    WANT_CODE(famsync_close(handle), FAMSYNC_OK);
    WANT(commits_left() == 0);
}

static void want_model(const struct model *model)
{
    static struct model found;
    WANT_CODE(famsync_read(handle, 0, 0, found.a, A_MOST, NULL), FAMSYNC_OK);
    WANT(memcmp(found.a, model->a, A_MOST) == 0);
    WANT(famsync_file_length(handle, 1) == model->length);
    WANT_CODE(famsync_read(handle, 1, 0, found.b, model->length, NULL), FAMSYNC_OK);
    WANT(memcmp(found.b, model->b, model->length) == 0);
}

/* Stores some bytes in one page of the first file. */
static void store(void)
{
    size_t at = below(below(3) ? PAGES : 10) * 4096 + below(4096), count = 1 + below((unsigned)(4096 - at % 4096));
    memset(now.a + at, (int)below(256), count);
    if (memory)
        memcpy((unsigned char *)famsync_memory_at(memory) + at, now.a + at, count);
    else
        WANT_CODE(famsync_write(handle, 0, at, now.a + at, count, NULL), FAMSYNC_OK);
}

static void set_length(void)
{
    size_t length = below(sizeof now.b + 1);
    if (length < now.length)
        memset(now.b + length, 0, now.length - length);
    now.length = length;
    WANT_CODE(famsync_setlength(handle, "b", length), FAMSYNC_OK);
}

/* A few pages, or as many as a commit can have, or a length alone, or nothing. */
static void change(void)
{
    unsigned kind = below(20), pages = kind == 0 ? SLOTS - 4 : 1 + below(5);
    if (kind < 16)
        for (unsigned i = 0; i < pages; i++)
            store();
    if (kind >= 14 && kind < 19)
        set_length();
}

static void commit(void)
{
    WANT_CODE(famsync_msync(handle, NULL), FAMSYNC_OK);
    committed = now;
}

/* Sessions of some commits each, with pauses here and there, and each begins with what the one before left. */
static void round_the_ring(int foreground, bool mapped)
{
    make();
    for (unsigned session = 0; session < (is_slow ? 2 : 6); session++) {
        begin(foreground, mapped);
        want_model(&committed);
        for (unsigned count = 0; count < 60; count++) {
            change();
            if (below(12) == 0) {
                WANT_CODE(famsync_rollback(handle), FAMSYNC_OK);
                now = committed;
            }
            commit();
            if (below(8) == 0)
                want_model(&committed);
            if (below(10) == 0)
                usleep(below(25000));
        }
        want_model(&committed);
        end();
    }
}

/* So many commits in a row make no sync but their own: two, or one where a digest seals. */
static void count_syncs(int foreground, unsigned pages)
{
    unsigned own = layout == 5 ? 2 : 1, others = 0;
    make();
    begin(foreground, false);
    reset();
    for (unsigned number = 1; number <= 300; number++) {
        unsigned before = atomic_load(&syncs);
        for (unsigned page = 0; page < pages; page++) {
            now.a[page * 4096] = (unsigned char)number;
            WANT_CODE(famsync_write(handle, 0, page * 4096, now.a + page * 4096, 1, NULL), FAMSYNC_OK);
        }
        commit();
        WANT(atomic_load(&syncs) >= before + own);
        others += atomic_load(&syncs) - before - own;
    }
    /* After a pause of 10 ms, which a busy machine may cause, the library's thread writes more blocks home. */
    if (foreground) {
        unsigned of_round = RING / 2 - 2 * commit_blocks(pages);
        WANT(others == 0);
        WANT(atomic_load(&home_blocks) <= pages * (300 * commit_blocks(pages) / of_round + 1));
    }
    printf("clients/c: log: layout %u, 300 commits of %u pages: %u syncs, %u writes, %u blocks home\n", layout, pages,
           atomic_load(&syncs), atomic_load(&writes), (unsigned)atomic_load(&home_blocks));
    want_model(&committed);
    end();
}

/* After a pause all commits are home, and sessions that only read are possible: those write nothing. */
static void idle(void)
{
    famsync *reader;
    make();
    begin(0, false);
    for (unsigned number = 0; number < 5; number++) {
        store();
        commit();
    }
    for (unsigned waited = 0; commits_left() > 0; waited++) {
        WANT(waited < 20000);
        usleep(1000);
    }
    end();
    reset();
    for (unsigned session = 0; session < 2; session++) {
        WANT_CODE(famsync_open(volume, &(struct famsync_options){.readonly = 1}, &reader), FAMSYNC_OK);
        handle = reader;
        want_model(&committed);
        WANT_CODE(famsync_close(reader), FAMSYNC_OK);
    }
    WANT(atomic_load(&writes) == 0 && atomic_load(&syncs) == 0);
}

/* Whether the volume has what was committed last, or what was to be committed then. */
static void want_either(void)
{
    unsigned char byte;
    handle = opened_with((struct famsync_options){.trust = 1});
    WANT_CODE(famsync_read(handle, 0, 4096, &byte, 1, NULL), FAMSYNC_OK);
    want_model(byte == now.a[4096] ? &now : &committed);
    WANT_CODE(famsync_close(handle), FAMSYNC_OK);
}

/* Commits until a write or a sync fails, which ends the session. Page 1 has the number of each commit. */
static bool commit_until_failure(unsigned at)
{
    int code = FAMSYNC_OK;
    make();
    begin(at % 2 == 0, at % 3 == 0);
    reset();
    atomic_store(&fails_at, at);
    for (unsigned number = 1; number <= 40 && code == FAMSYNC_OK; number++) {
        now.a[4096] = (unsigned char)number;
        if (memory)
            memcpy((unsigned char *)famsync_memory_at(memory) + 4096, now.a + 4096, 1);
        else if ((code = famsync_write(handle, 0, 4096, now.a + 4096, 1, NULL)) != FAMSYNC_OK)
            break;
        for (unsigned page = 0; page < number % 7 && code == FAMSYNC_OK; page++) {
            size_t place = (2 + (number + page) % 50) * 4096;
            now.a[place] = (unsigned char)number;
            if (memory)
                memcpy((unsigned char *)famsync_memory_at(memory) + place, now.a + place, 1);
            else
                code = famsync_write(handle, 0, place, now.a + place, 1, NULL);
        }
        if (code == FAMSYNC_OK)
            code = famsync_msync(handle, NULL);
        if (code == FAMSYNC_OK)
            committed = now;
    }
    WANT(code == FAMSYNC_OK || code == FAMSYNC_DEVICE);
    if (code != FAMSYNC_OK) {
        WANT_CODE(famsync_msync(handle, NULL), FAMSYNC_BROKEN);
        WANT_CODE(famsync_memory_close(memory), FAMSYNC_OK);
        WANT_CODE(famsync_close(handle), FAMSYNC_DEVICE);
    } else {
        WANT_CODE(famsync_memory_close(memory), FAMSYNC_OK);
        code = famsync_close(handle);
        WANT(code == FAMSYNC_OK || code == FAMSYNC_DEVICE);
    }
    atomic_store(&fails_at, 0);
    want_either();
    return code == FAMSYNC_DEVICE;
}

static void failing_calls(void)
{
    unsigned at = 1;
    while (commit_until_failure(at) || at < 100)
        at += is_slow ? 13 : at < 60 ? 1 : 7;
    printf("clients/c: log: layout %u: up to call %u fails\n", layout, at);
}

/* Reads fail now and then: the call is refused, and may be made again. In layout 5 each commit reads a block. */
static void failing_reads(void)
{
    unsigned refused = 0;
    for (unsigned every = 2; every < 9; every += is_slow ? 3 : 1) {
        make();
        begin(every % 2, false);
        for (unsigned number = 0; number < 60; number++) {
            int code;
            change();
            atomic_store(&fails_read, every);
            for (unsigned tries = 0; (code = famsync_msync(handle, NULL)) != FAMSYNC_OK; tries++) {
                WANT_CODE(code, FAMSYNC_DEVICE);
                WANT(errno == EIO);
                WANT(tries < 1000);
                refused++;
            }
            atomic_store(&fails_read, 0);
            committed = now;
        }
        want_model(&committed);
        end();
        handle = opened();
        want_model(&committed);
        WANT_CODE(famsync_close(handle), FAMSYNC_OK);
    }
    WANT(refused > 0 || layout != 5);
}

/* A rollback that is refused when another core has opened the volume, in an epoch of its own. Commits go on in the
   epoch before, and the next session finds them. */
static void refused_rollback(void)
{
    struct famsync_options options = {.size = sizeof options, .foreground = 1, .resident = 1};
    int status;
    make();
    pid_t child = fork();
    WANT(child >= 0);
    if (child == 0) {
        handle = opened_with(options);
        WANT_CODE(famsync_memory_open(handle, "a", &memory), FAMSYNC_OK);
        unsigned char *at = famsync_memory_at(memory);
        for (unsigned char number = 1; number <= 20; number++) {
            at[4096 * number] = number;
            WANT_CODE(famsync_setlength(handle, "b", number), FAMSYNC_OK);
            atomic_store(&fails_home, true);
            WANT_CODE(famsync_rollback(handle), FAMSYNC_DEVICE);
            atomic_store(&fails_home, false);
            WANT(at[4096 * number] == number);
            WANT_CODE(famsync_msync(handle, NULL), FAMSYNC_OK);
        }
        raise(SIGKILL);
    }
    WANT(waitpid(child, &status, 0) == child && WIFSIGNALED(status) && WTERMSIG(status) == SIGKILL);
    for (unsigned char number = 1; number <= 20; number++)
        now.a[4096 * number] = number;
    now.length = 20;
    handle = opened();
    want_model(&now);
    WANT_CODE(famsync_close(handle), FAMSYNC_OK);
}

/* What is written home waits in memory, and so do records that are read: not all of them, whatever the log's length. */
static void memory_is_bounded(int foreground)
{
    const unsigned slots = 8000, pages = 6000;
    static unsigned char bytes[4096 * 20];
    uint64_t most = 0;
    char files[40];
    snprintf(files, sizeof files, "a=%u", pages * 4096);
    make_volume_of(layout, slots, files);
    handle = opened_with((struct famsync_options){.foreground = foreground});
    for (unsigned number = 1; number <= (is_slow ? 450 : 1500); number++) {
        struct famsync_stat stat = {.size = sizeof stat};
        memset(bytes, (int)number, sizeof bytes);
        WANT_CODE(famsync_write(handle, 0, (number * 20) % pages * 4096, bytes, sizeof bytes, NULL), FAMSYNC_OK);
        WANT_CODE(famsync_msync(handle, NULL), FAMSYNC_OK);
        WANT_CODE(famsync_stat(handle, &stat), FAMSYNC_OK);
        most = stat.memory > most ? stat.memory : most;
    }
    WANT_CODE(famsync_close(handle), FAMSYNC_OK);
    printf("clients/c: log: layout %u: %.1f MB of memory at most, with a log of %.1f MB\n", layout, (double)most / 1e6,
           log_blocks(slots) * 4096 / 1e6);
    WANT(most < 12000000);
}

/* A session in another process, which is killed; the number of its last acknowledged commit is in shared memory. */
static _Atomic uint64_t *acknowledged;

static void commit_for_ever(uint64_t number, int foreground)
{
    begin(foreground, number % 2);
    for (;; number++) {
        for (unsigned i = 0; i < 1 + number % 9; i++) {
            size_t at = (i == 0 ? 0 : 1 + (number * 5 + i) % (PAGES - 1)) * 4096;
            if (memory)
                memcpy((unsigned char *)famsync_memory_at(memory) + at, &number, sizeof number);
            else
                WANT_CODE(famsync_write(handle, 0, at, &number, sizeof number, NULL), FAMSYNC_OK);
        }
        WANT_CODE(famsync_msync(handle, NULL), FAMSYNC_OK);
        atomic_store(acknowledged, number);
        if (number % 16 == 0)
            usleep(12000);
    }
}

/* The newest commit's number is in page 0, and each page has that of the last commit that wrote it. */
static uint64_t find_commit(void)
{
    static uint64_t expected[PAGES];
    uint64_t number;
    memset(expected, 0, sizeof expected);
    WANT_CODE(famsync_read(handle, 0, 0, &number, sizeof number, NULL), FAMSYNC_OK);
    for (uint64_t other = 1; other <= number; other++)
        for (unsigned i = 0; i < 1 + other % 9; i++)
            expected[i == 0 ? 0 : 1 + (other * 5 + i) % (PAGES - 1)] = other;
    for (unsigned page = 0; page < PAGES; page++) {
        uint64_t found;
        WANT_CODE(famsync_read(handle, 0, page * 4096, &found, sizeof found, NULL), FAMSYNC_OK);
        WANT(found == expected[page]);
    }
    return number;
}

static void killed(void)
{
    uint64_t number = 0;
    make();
    for (unsigned kills = 0; kills < (is_slow ? 5 : 25); kills++) {
        int status;
        pid_t child = fork();
        WANT(child >= 0);
        if (child == 0)
            commit_for_ever(number + 1, kills % 3 == 0);
        usleep(5000 + below(100000));
        kill(child, SIGKILL);
        WANT(waitpid(child, &status, 0) == child && WIFSIGNALED(status) && WTERMSIG(status) == SIGKILL);
        handle = opened();
        number = find_commit();
        WANT(number >= atomic_load(acknowledged));
        WANT_CODE(famsync_close(handle), FAMSYNC_OK);
    }
    printf("clients/c: log: layout %u: %u commits beside kills\n", layout, (unsigned)number);
}

/* An opening after a kill goes through a log of small commits in few reads. */
static void open_many_commits(void)
{
    enum { COMMITS = 400, RECORDS = 2000 };
    unsigned before;
    int status;
    pid_t child;
    make_volume_of(layout, RECORDS, "a=40960");
    child = fork();
    WANT(child >= 0);
    if (child == 0) {
        begin(1, false);
        for (uint64_t number = 1; number <= COMMITS; number++) {
            WANT_CODE(famsync_write(handle, 0, number % 10 * 4096, &number, sizeof number, NULL), FAMSYNC_OK);
            WANT_CODE(famsync_msync(handle, NULL), FAMSYNC_OK);
        }
        _exit(0);
    }
    WANT(waitpid(child, &status, 0) == child && WIFEXITED(status) && WEXITSTATUS(status) == 0);
    WANT(commits_left() == COMMITS);
    atomic_store(&fails_read, 1u << 30);
    before = atomic_load(&reads);
    handle = opened();
    WANT(atomic_load(&reads) - before <= 60);
    atomic_store(&fails_read, 0);
    for (uint64_t page = 0; page < 10; page++) {
        uint64_t found;
        WANT_CODE(famsync_read(handle, 0, page * 4096, &found, sizeof found, NULL), FAMSYNC_OK);
        WANT(found == COMMITS - (COMMITS - page) % 10);
    }
    WANT_CODE(famsync_close(handle), FAMSYNC_OK);
}

int main(void)
{
    acknowledged = mmap(NULL, 4096, PROT_READ | PROT_WRITE, MAP_SHARED | MAP_ANONYMOUS, -1, 0);
    WANT(acknowledged != MAP_FAILED);
    is_slow = getenv("WITHOUT_SIGNALS") != NULL;
    srand(1);
    for (layout = FIRST_LAYOUT; layout <= LAYOUTS; layout++) {
        for (int foreground = 0; foreground < 2; foreground++) {
            round_the_ring(foreground, false);
            round_the_ring(foreground, true);
            count_syncs(foreground, 1);
            count_syncs(foreground, 4);
            memory_is_bounded(foreground);
        }
        idle();
        failing_calls();
        failing_reads();
        refused_rollback();
        open_many_commits();
        atomic_store(acknowledged, 0);
        killed();
    }
    printf("clients/c: log: as it should be\n");
    return 0;
}
