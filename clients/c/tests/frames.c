/* One count of the pages of the next commit: those that famsync_write wrote, and those of plain memory that were stored
   to. The write that would pass the most pages of a commit is refused, and changes nothing. */
#include "test.h"

#define PAGES 24u
#define FILES 3u /* the memory of "b" isn't open */
#define FRAMES 8u
#define STEPS 3000u

/* No power is cut here. */
int fdatasync(int file)
{
    (void)file;
    return 0;
}

int fsync(int file)
{
    (void)file;
    return 0;
}

static unsigned layout;
static struct famsync_options options;
static famsync *handle;
static famsync_memory *memory[FILES];
static unsigned char *at[FILES];

/* Which pages wait for the next commit, and what each page has. */
static bool waits[FILES][PAGES];
static unsigned char content[FILES][PAGES], committed[FILES][PAGES];

static unsigned waiting(void)
{
    unsigned count = 0;
    for (unsigned file = 0; file < FILES; file++)
        for (unsigned page = 0; page < PAGES; page++)
            count += waits[file][page];
    return count;
}

/* Whether the system can track stores in this way. */
static bool begins(void)
{
    unlink(volume);
    make_volume_of(layout, FRAMES + 1, "a=98304 b=98304 c=98304");
    int code = famsync_open(volume, &options, &handle);
    if (code == FAMSYNC_TRACKING && options.tracking == FAMSYNC_TRACK_KERNEL)
        return false;
    WANT_CODE(code, FAMSYNC_OK);
    WANT(famsync_frames(handle) == FRAMES);
    WANT_CODE(famsync_memory_open(handle, "a", &memory[0]), FAMSYNC_OK);
    WANT_CODE(famsync_memory_open(handle, "c", &memory[2]), FAMSYNC_OK);
    at[0] = famsync_memory_at(memory[0]);
    at[2] = famsync_memory_at(memory[2]);
    memset(waits, 0, sizeof waits);
    memset(content, 0, sizeof content);
    memset(committed, 0, sizeof committed);
    return true;
}

static void end(void)
{
    WANT_CODE(famsync_memory_close(memory[0]), FAMSYNC_OK);
    WANT_CODE(famsync_memory_close(memory[2]), FAMSYNC_OK);
    WANT_CODE(famsync_close(handle), FAMSYNC_OK);
}

static void store(unsigned file, unsigned page, unsigned char value)
{
    at[file][page * 4096] = content[file][page] = value;
    waits[file][page] = true;
}

/* A write to the first byte of a page, or to those of several pages and all that is between. It is refused if there
   would be more pages than a commit can have, unless it has no page that doesn't wait already. */
static int write_pages(unsigned file, unsigned page, unsigned pages, unsigned char value)
{
    unsigned char bytes[PAGES * 4096] = {0};
    unsigned added = 0, before = waiting();
    size_t count = (pages - 1) * 4096 + 1, done = 99;
    for (unsigned i = 0; i < pages; i++) {
        bytes[i * 4096] = value;
        added += !waits[file][page + i];
    }
    int code = famsync_write(handle, file, page * 4096, bytes, count, &done);
    WANT_CODE(code, added > 0 && before + added > FRAMES ? FAMSYNC_NOFRAME : FAMSYNC_OK);
    WANT(done == (code == FAMSYNC_OK ? count : 0));
    for (unsigned i = 0; i < pages && code == FAMSYNC_OK; i++) {
        waits[file][page + i] = true;
        content[file][page + i] = value;
    }
    return code;
}

/* Nothing else waits than what was stored and written, and nothing else was changed. */
static void judge(void)
{
    struct famsync_stat stat = {.size = sizeof stat};
    unsigned char byte;
    WANT_CODE(famsync_stat(handle, &stat), FAMSYNC_OK);
    WANT(stat.staged == waiting());
    for (unsigned file = 0; file < FILES; file++)
        for (unsigned page = 0; page < PAGES; page++) {
            WANT_CODE(famsync_read(handle, file, page * 4096, &byte, 1, NULL), FAMSYNC_OK);
            WANT(byte == content[file][page]);
        }
}

static void commit(void)
{
    int code = famsync_msync(handle, NULL);
    WANT_CODE(code, waiting() > FRAMES ? FAMSYNC_NOFRAME : FAMSYNC_OK);
    if (code == FAMSYNC_OK) {
        memset(waits, 0, sizeof waits);
        memcpy(committed, content, sizeof content);
    }
}

static void roll_back(void)
{
    WANT_CODE(famsync_rollback(handle), FAMSYNC_OK);
    memset(waits, 0, sizeof waits);
    memcpy(content, committed, sizeof content);
}

/* Up to the most pages and not further, however they came there. */
static void up_to_the_most(void)
{
    for (unsigned page = 0; page < 5; page++)
        store(0, page, 1);
    for (unsigned page = 0; page < 3; page++)
        WANT_CODE(write_pages(1, page, 1, 2), FAMSYNC_OK);
    for (unsigned file = 0; file < FILES; file++)
        WANT_CODE(write_pages(file, 9, 1, 3), FAMSYNC_NOFRAME);
    WANT_CODE(write_pages(0, 4, 2, 3), FAMSYNC_NOFRAME);
    WANT_CODE(write_pages(1, 2, 2, 3), FAMSYNC_NOFRAME);
    judge();
    WANT_CODE(write_pages(0, 3, 2, 4), FAMSYNC_OK);
    WANT_CODE(write_pages(1, 0, 3, 4), FAMSYNC_OK);
    commit();
    for (unsigned page = 0; page < FRAMES; page++)
        WANT_CODE(write_pages(2, page * 2, 1, 5), FAMSYNC_OK);
    WANT_CODE(write_pages(2, 1, 1, 6), FAMSYNC_NOFRAME);
    judge();
    commit();
    judge();
}

/* Stores that passed the most are undone. */
static void past_the_most(void)
{
    for (unsigned page = 0; page <= FRAMES; page++)
        store(2, page, 7);
    WANT_CODE(write_pages(2, 0, FRAMES, 8), FAMSYNC_OK);
    WANT_CODE(write_pages(1, 0, 1, 8), FAMSYNC_NOFRAME);
    commit();
    WANT_CODE(write_pages(1, 0, 1, 8), FAMSYNC_NOFRAME);
    judge();
    roll_back();
    judge();
    WANT_CODE(write_pages(1, 0, FRAMES, 9), FAMSYNC_OK);
    commit();
}

/* Any stores, writes, commits and rollbacks. */
static void any(void)
{
    unsigned seed = layout;
    for (unsigned step = 0; step < STEPS; step++) {
        unsigned what = (unsigned)rand_r(&seed) % 32, file = (unsigned)rand_r(&seed) % FILES;
        unsigned pages = 1 + (unsigned)rand_r(&seed) % (what % 4 == 0 ? FRAMES : 2);
        unsigned page = (unsigned)rand_r(&seed) % (PAGES + 1 - pages);
        if (what < 2)
            commit();
        else if (what < 3 || waiting() > FRAMES)
            roll_back();
        else if (what < 16 && file != 1)
            store(file, page, (unsigned char)step);
        else
            (void)write_pages(file, page, pages, (unsigned char)step);
        if (what == 31)
            judge();
    }
}

int main(void)
{
    make_folder();
    for (layout = FIRST_LAYOUT; layout <= LAYOUTS; layout++)
        for (unsigned way = 0; way < 3; way++) {
            options = (struct famsync_options){.size = sizeof options, .foreground = 1, .resident = way == 1};
            options.tracking = way == 2 ? FAMSYNC_TRACK_KERNEL : FAMSYNC_TRACK_SIGNALS;
            if (!begins())
                continue;
            up_to_the_most();
            past_the_most();
            any();
            end();
        }
    printf("clients/c: frames: as it should be\n");
    return 0;
}
