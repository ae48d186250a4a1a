/*
 * A session for tests that cut it off or make a call of it fail. The first ten pages have one number in each, the same
 * in all, that is raised by one and committed, round by round: the even ones are of the file `a`, in plain memory, and
 * the odd ones of `c`, by famsync_write. `b` has the last number as its length that four divides. Before some rounds,
 * and after one that failed, other changes are made and undone.
 *
 *   session VOLUME make [FILES [LAYOUT]]      makes a volume; of layout 5 where that isn't said
 *   session VOLUME format [LAYOUT]            the same by famsync_format, and prints the call if it fails
 *   session VOLUME work ROUNDS [foreground|few]
 *                                             prints each call that fails, and the number of each round that is done;
 *                                             `few`: in the foreground, with no more pages in a commit than a round
 *                                             writes, and another page is read after each
 *   session VOLUME load                       the same for ever, by three threads, each with pages of its own
 *   session VOLUME children                   the same, and another thread makes children meanwhile, which store, too
 *   session VOLUME find [trust]               prints the numbers that are there
 *   session VOLUME read                       opens it for reading alone, and keeps it until its input ends
 *   session VOLUME backup PATH                writes a backup of it, after a store that isn't committed
 *
 * A call that fails is printed with its code, and with errno where that says how.
 */
#include "test.h"

#include <stdatomic.h>

#define FILES "a=163840 b=0/5000 c=163840"
#define PAGES 10
#define THREADS 3
#define FEW (PAGES + 1) /* as many pages as a round writes */

enum { A, B, C };

static int report(const char *call, int code)
{
    if (code == FAMSYNC_OK)
        return 0;
    if (code == FAMSYNC_DEVICE || code == FAMSYNC_SYSTEM || code == FAMSYNC_NOSPACE)
        printf("%s %d %d\n", call, code, errno);
    else
        printf("%s %d\n", call, code);
    return 1;
}

static int read_another(famsync *handle, uint64_t number)
{
    unsigned char byte;
    return report("read", famsync_read(handle, C, (PAGES + number % PAGES) * 4096, &byte, 1, NULL));
}

/* Changes all that a round changes, and undoes it. */
static int undone(famsync *handle, famsync_memory *memory, uint64_t number)
{
    static const unsigned char junk[100] = {0xEE};
    unsigned char *at = famsync_memory_at(memory), found = 0;
    int failed = 0;
    for (unsigned page = 0; page < PAGES; page += 2) {
        memcpy(at + page * 4096 + 3000, junk, sizeof junk);
        failed |= report("write", famsync_write(handle, C, (page + 1) * 4096 + 3000, junk, sizeof junk, NULL));
    }
    failed |= report("setlength", famsync_setlength(handle, "b", 4999));
    if (report("rollback", famsync_rollback(handle)))
        return 1;
    for (unsigned page = 0; page < PAGES; page += 2) {
        failed |= report("read", famsync_read(handle, C, (page + 1) * 4096 + 3000, &found, 1, NULL));
        WANT(found == 0 && at[page * 4096 + 3000] == 0);
    }
    WANT(famsync_file_length(handle, B) == (number - 1) / 4 * 4);
    return failed;
}

static int one_round(famsync *handle, famsync_memory *memory, uint64_t number)
{
    uint64_t mark;
    int failed = 0;
    for (unsigned page = 0; page < PAGES; page += 2) {
        memcpy((unsigned char *)famsync_memory_at(memory) + page * 4096 + 8 * (number % 16), &number, 8);
        memcpy((unsigned char *)famsync_memory_at(memory) + page * 4096 + 4000, &number, 8);
        failed |= report("write", famsync_write(handle, C, (page + 1) * 4096 + 4000, &number, 8, NULL));
    }
    if (number % 4 == 0)
        failed |= report("setlength", famsync_setlength(handle, "b", number));
    failed |= report("msync", failed ? FAMSYNC_OK : famsync_msync(handle, &mark));
    if (!failed)
        printf("%llu\n", (unsigned long long)number);
    return failed;
}

static void make_rounds(famsync *handle, famsync_memory *memory, uint64_t first, uint64_t end)
{
    bool few = famsync_frames(handle) == FEW;
    int left = 3; /* a call that failed may be tried again */
    bool failed = false;
    for (uint64_t round = first; round < end && left > 0;) {
        failed = (round % 3 == 2 || failed) && undone(handle, memory, round);
        failed = failed || one_round(handle, memory, round);
        if (failed) {
            left--;
            continue;
        }
        if (few)
            left -= read_another(handle, round);
        round++;
    }
}

static int work(uint64_t rounds, const char *how)
{
    famsync *handle;
    famsync_memory *memory;
    uint64_t number;
    struct famsync_options options = {.foreground = *how, .frames = strcmp(how, "few") == 0 ? FEW : 0};
    if (report("open", famsync_open(volume, &options, &handle)))
        return 0;
    if (!report("memory", famsync_memory_open(handle, "a", &memory))) {
        if (!report("read", famsync_read(handle, C, 4096 + 4000, &number, 8, NULL)))
            make_rounds(handle, memory, number + 1, number + 1 + rounds);
        report("forget", famsync_memory_close(memory));
    }
    report("close", famsync_close(handle));
    return 0;
}

static famsync *shared;
static famsync_memory *plain;

static void *load(void *argument)
{
    unsigned worker = (unsigned)(uintptr_t)argument;
    unsigned char *at = (unsigned char *)famsync_memory_at(plain) + 4000 + 4096 * PAGES * (worker + 1);
    uint64_t number;
    memcpy(&number, at, 8);
    for (number += number == 0;; number++) { /* a round that was cut off is made whole before the next */
        for (unsigned page = 0; page < PAGES; page++)
            memcpy(at + 4096 * page, &number, 8);
        WANT_CODE(famsync_msync(shared, NULL), FAMSYNC_OK);
        char line[64];
        int length = snprintf(line, sizeof line, "%u %llu\n", worker, (unsigned long long)number);
        WANT(write(1, line, (size_t)length) == length);
    }
    return NULL;
}

/* Children that share the memory, and one that has a copy of it now and then, store to the pages that no thread has. */
static void *make_children(void *argument)
{
    volatile unsigned char *at = (unsigned char *)famsync_memory_at(plain) + 100;
    (void)argument;
    for (unsigned made = 0;; made++) {
        int status;
        pid_t child = made % 8 == 7 ? fork() : vfork();
        if (child == 0) {
            at[4096 * (made % PAGES)] = (unsigned char)made;
            _exit(0);
        }
        WANT(child > 0 && waitpid(child, &status, 0) == child && status == 0);
    }
    return NULL;
}

static int loaded(bool with_children)
{
    pthread_t thread[THREADS], maker;
    shared = opened();
    WANT_CODE(famsync_memory_open(shared, "a", &plain), FAMSYNC_OK);
    for (uintptr_t i = 0; i < THREADS; i++)
        WANT(pthread_create(&thread[i], NULL, load, (void *)i) == 0);
    if (with_children)
        WANT(pthread_create(&maker, NULL, make_children, NULL) == 0);
    for (unsigned i = 0; i < THREADS; i++)
        pthread_join(thread[i], NULL);
    return 1;
}

/* One number for each ten pages, or `torn`; pages of the threads may differ by one within a round that wasn't answered,
   as others commit meanwhile. */
static int find(bool trust)
{
    famsync *handle;
    struct famsync_options options = {.trust = trust};
    int code = famsync_open(volume, &options, &handle);
    if (code != FAMSYNC_OK) {
        printf("open %d\n", code);
        return 0;
    }
    for (unsigned part = 0; part <= THREADS; part++) {
        uint64_t first = 0, number, bad = 0;
        for (unsigned page = 0; page < PAGES; page++) {
            unsigned of = part == 0 && page % 2 == 1 ? C : A;
            WANT_CODE(famsync_read(handle, of, 4096 * (PAGES * part + page) + 4000, &number, 8, NULL), FAMSYNC_OK);
            first = page == 0 ? number : first;
            bad |= number != first && (part == 0 || number + 1 != first);
        }
        printf(bad ? "torn " : "%llu ", (unsigned long long)first);
    }
    printf("%llu\n", (unsigned long long)famsync_file_length(handle, 1));
    WANT_CODE(famsync_close(handle), FAMSYNC_OK);
    return 0;
}

/* The same bytes as those of `make`. */
static int formats(unsigned layout)
{
    struct famsync_new_file file[] = {{"a", 163840, 0}, {"b", 0, 5000}, {"c", 163840, 0}};
    struct famsync_plan plan = {.size = sizeof plan, .layout = layout, .files = 3, .file = file};
    plan.log = log_blocks(48);
    plan.key = layout == 6 ? LOG_KEY : 0;
    return report("format", famsync_format(volume, &plan));
}

static int reads(void)
{
    famsync *handle;
    int code = famsync_open(volume, &(struct famsync_options){.readonly = 1}, &handle);
    if (report("open", code))
        return 0;
    puts("reading");
    while (getchar() != EOF)
        continue;
    return report("close", famsync_close(handle));
}

static int backs_up(const char *path)
{
    famsync *handle = opened();
    int file = open(path, O_RDWR | O_CREAT | O_CLOEXEC, 0600);
    WANT_CODE(famsync_write(handle, A, 0, "not committed", 13, NULL), FAMSYNC_OK);
    report("backup", famsync_backup(handle, file));
    WANT(close(file) == 0);
    return report("close", famsync_close(handle));
}

int main(int count, char **words)
{
    WANT(count >= 3);
    setvbuf(stdout, NULL, _IOLBF, 0); /* what was acknowledged is printed also where the process is killed then */
    snprintf(volume, sizeof volume, "%s", words[1]);
    if (strcmp(words[2], "make") == 0) {
        strcpy(folder, ".");
        make_volume_of(count > 4 ? (unsigned)atoi(words[4]) : FIRST_LAYOUT, 48, count > 3 ? words[3] : FILES);
        return 0;
    }
    if (strcmp(words[2], "format") == 0)
        return formats(count > 3 ? (unsigned)atoi(words[3]) : 0);
    if (strcmp(words[2], "work") == 0)
        return work((uint64_t)atoi(words[3]), count > 4 ? words[4] : "");
    if (strcmp(words[2], "load") == 0 || strcmp(words[2], "children") == 0)
        return loaded(words[2][0] == 'c');
    if (strcmp(words[2], "read") == 0)
        return reads();
    if (strcmp(words[2], "backup") == 0)
        return backs_up(words[3]);
    return find(count > 3);
}
