/*
 * The core over a volume in memory, with a journal and then with a log: pages are written and committed, and the bytes
 * are found again, in the core and in a session after it. With an argument it measures: `smoke PAGES` writes that many
 * pages to the volume with a journal and commits them, twice.
 */
#include "../famsync_core.h"

#include <stdio.h>
#include <stdlib.h>
#include <string.h>

enum { PAGE = 4096, SLOTS = 300, PAGES = 1000, HOME = 1 + 2 + SLOTS, BLOCKS = HOME + PAGES };
enum { RING = 64, LOG_PAGES = 100, LOG_HOME = 5 + RING, LOG_BLOCKS = LOG_HOME + LOG_PAGES };

/* The volume, its number of blocks, and how many calls were made on it. */
static uint8_t volume[(size_t)BLOCKS * PAGE];
static uint32_t blocks;
static unsigned writes, syncs;

#define HAVE(condition)                                                                                                \
    do {                                                                                                               \
        if (!(condition)) {                                                                                            \
            fprintf(stderr, "%s:%d: not %s\n", __FILE__, __LINE__, #condition);                                        \
            exit(1);                                                                                                   \
        }                                                                                                              \
    } while (0)

static struct rattle_tried tried(void *at)
{
    static uint8_t nothing;
    return at ? (struct rattle_tried){true, at} : (struct rattle_tried){false, &nothing};
}

struct rattle_tried rattle_alloc(size_t size, size_t align)
{
    return tried(malloc(size > 0 ? size : align));
}

struct rattle_tried rattle_realloc(uint8_t *old, size_t kept, size_t size, size_t align)
{
    (void)kept;
    return tried(realloc(old, size > 0 ? size : align));
}

void rattle_dealloc(uint8_t *old)
{
    free(old);
}

static void put(size_t at, uint64_t number, unsigned bytes)
{
    while (bytes-- > 0)
        volume[at++] = (uint8_t)(number >> (8 * bytes));
}

/* A volume of layout 1 with one file "a", of zeros: docs/FORMATS.md has its super block. */
static void format(void)
{
    memset(volume, 0, sizeof volume);
    blocks = BLOCKS;
    memcpy(volume, "FAMSYNC1", 8);
    put(8, 1, 4);
    put(12, SLOTS, 4);
    put(16, BLOCKS, 4);
    volume[32] = 'a';
    put(64, (uint64_t)PAGES * PAGE, 8);
    put(72, HOME, 4);
    put(76, PAGES, 4);
}

/* A volume of layout 5 with one file "a", of zeros, and an empty log. */
static void format_log(void)
{
    memset(volume, 0, sizeof volume);
    blocks = LOG_BLOCKS;
    memcpy(volume, "FAMSYNC5", 8);
    put(8, 1, 4);
    put(12, RING, 4);
    put(16, LOG_BLOCKS, 4);
    put(20, 4, 4);
    volume[32] = 'a';
    put(64, (uint64_t)LOG_PAGES * PAGE, 8);
    put(72, LOG_HOME - (RING + 1), 4);
    put(76, LOG_PAGES, 4);
    put((size_t)2 * PAGE, 1, 8);     /* the oldest commit will have number 1, */
    put((size_t)2 * PAGE + 8, 1, 8); /* in epoch 1 */
    put((size_t)(4 + RING) * PAGE, (uint64_t)LOG_PAGES * PAGE, 8);
}

/* What a host does with a block that is wanted. */
static void supply(famsync_core *core, uint32_t block)
{
    HAVE(block < blocks);
    HAVE(famsync_core_supply(*core, block, volume + (size_t)block * PAGE, PAGE, &core->at) == FAMSYNC_CORE_OK);
    HAVE(famsync_core_is_known(*core, block, &core->at) == 1);
}

/* What a host does with the oldest call that waits. */
static bool make_call(famsync_core *core)
{
    uint32_t kind;
    uint64_t offset, length;
    const uint8_t *bytes;
    if (famsync_core_call(*core, 0, &kind, &offset, &bytes, &length, &core->at) != FAMSYNC_CORE_OK)
        return false;
    if (kind == FAMSYNC_CORE_CALL_WRITE) {
        HAVE(offset <= sizeof volume && length <= sizeof volume - offset);
        memcpy(volume + offset, bytes, length);
        writes++;
    } else {
        HAVE(kind == FAMSYNC_CORE_CALL_SYNC);
        syncs++;
    }
    HAVE(famsync_core_carried_out(*core, 1, &core->at) == FAMSYNC_CORE_OK);
    return true;
}

static void drain(famsync_core *core)
{
    while (make_call(core))
        ;
    HAVE(famsync_core_waiting(*core, &core->at) == 0);
}

/* Opens a session, and returns the answer. */
static int32_t answer_of_open(famsync_core *core)
{
    uint32_t wanted = 0;
    int32_t code;
    HAVE(famsync_core_begin(blocks, &core->at) == FAMSYNC_CORE_OK);
    HAVE(famsync_core_head(*core, &core->at) == FAMSYNC_CORE_ORDER);
    HAVE(famsync_core_files(*core, &core->at) == FAMSYNC_CORE_ORDER);
    while ((code = famsync_core_open(*core, 0, &wanted, &core->at)) == FAMSYNC_CORE_WANTED) {
        HAVE(famsync_core_waiting(*core, &core->at) == 0);
        supply(core, wanted);
    }
    return code;
}

static famsync_core begin(void)
{
    famsync_core core = {0};
    uint32_t wanted = 0;
    HAVE(answer_of_open(&core) == FAMSYNC_CORE_OK);
    HAVE(famsync_core_open(core, 0, &wanted, &core.at) == FAMSYNC_CORE_ORDER);
    HAVE(famsync_core_head(core, &core.at) == (blocks == LOG_BLOCKS ? LOG_HOME : HOME));
    HAVE(famsync_core_shares_syncs(core, &core.at) == (blocks == LOG_BLOCKS ? 1 : 0));
    drain(&core);
    return core;
}

static void refuses(int32_t code)
{
    famsync_core core = {0};
    HAVE(answer_of_open(&core) == code && famsync_core_waiting(core, &core.at) == 0);
    HAVE(famsync_core_is_known(core, 0, &core.at) == 1);
    famsync_core_close(core);
}

static void refuses_what_is_no_volume(void)
{
    format();
    volume[7] = '7';
    refuses(FAMSYNC_CORE_NOTAVOLUME);
    format();
    put(8, 0, 4); /* no file */
    refuses(FAMSYNC_CORE_DAMAGED);
    format_log();
    put(12, 3, 4); /* a log of 3 blocks */
    refuses(FAMSYNC_CORE_DAMAGED);
}

static void write_page(famsync_core *core, uint64_t page, const uint8_t *bytes)
{
    HAVE(famsync_core_write(*core, 0, page, bytes, PAGE, &core->at) == FAMSYNC_CORE_OK);
    HAVE(famsync_core_is_staged(*core, 0, page, &core->at) == 1);
}

static void read_page(famsync_core *core, uint64_t page, uint8_t *bytes)
{
    uint32_t wanted = 0;
    int code;
    while ((code = famsync_core_read(*core, 0, page, bytes, PAGE, &wanted, &core->at)) == FAMSYNC_CORE_WANTED)
        supply(core, wanted);
    HAVE(code == FAMSYNC_CORE_OK);
}

/* Only a volume with a log wants blocks for this. */
static uint32_t commit(famsync_core *core, unsigned *supplied)
{
    uint32_t mark = 0, wanted = 0;
    int32_t code;
    while ((code = famsync_core_commit(*core, &mark, &wanted, &core->at)) == FAMSYNC_CORE_WANTED) {
        supply(core, wanted);
        (*supplied)++;
    }
    HAVE(code == FAMSYNC_CORE_OK);
    return mark;
}

static void write_home(famsync_core *core)
{
    uint32_t wanted = 0;
    int32_t code;
    while ((code = famsync_core_write_out(*core, 100, &wanted, &core->at)) != FAMSYNC_CORE_NONE) {
        HAVE(code == FAMSYNC_CORE_OK || code == FAMSYNC_CORE_WANTED);
        if (code == FAMSYNC_CORE_WANTED)
            supply(core, wanted);
        drain(core);
    }
    drain(core);
}

static void refuses_what_is_not_there(famsync_core *core)
{
    static uint8_t page[PAGE];
    uint64_t length = 0, pages = 0;
    uint32_t wanted = 0;
    HAVE(famsync_core_file(*core, 1, &length, &pages, &core->at) == FAMSYNC_CORE_ARGUMENT);
    HAVE(famsync_core_read(*core, 1, 0, page, PAGE, &wanted, &core->at) == FAMSYNC_CORE_NOFILE);
    HAVE(famsync_core_read(*core, 0, PAGES, page, PAGE, &wanted, &core->at) == FAMSYNC_CORE_EINVAL);
    HAVE(famsync_core_read(*core, 0, 0, page, PAGE - 1, &wanted, &core->at) == FAMSYNC_CORE_ARGUMENT);
    HAVE(famsync_core_write(*core, 1 << 20, 0, page, PAGE, &core->at) == FAMSYNC_CORE_NOFILE);
    HAVE(famsync_core_write(*core, 0, UINT64_MAX, page, PAGE, &core->at) == FAMSYNC_CORE_EINVAL);
    HAVE(famsync_core_write(*core, 0, 0, page, PAGE + 1, &core->at) == FAMSYNC_CORE_ARGUMENT);
    HAVE(famsync_core_set_length(*core, 0, PAGE, &wanted, &core->at) == FAMSYNC_CORE_EINVAL); /* layout 1 */
    HAVE(famsync_core_staged(*core, &core->at) == 0);
}

static void finds_what_was_committed(void)
{
    static uint8_t bytes[3][PAGE], found[PAGE];
    uint8_t name[32];
    uint64_t length = 0, pages = 0;
    famsync_core core;
    format();
    core = begin();
    HAVE(famsync_core_files(core, &core.at) == 1 && famsync_core_frames(core, &core.at) == SLOTS);
    HAVE(famsync_core_file(core, 0, &length, &pages, &core.at) == FAMSYNC_CORE_OK);
    HAVE(length == (uint64_t)PAGES * PAGE && pages == PAGES);
    HAVE(famsync_core_file_name(core, 0, name, sizeof name, &core.at) == 1 && name[0] == 'a');
    refuses_what_is_not_there(&core);
    for (unsigned i = 0; i < 3; i++) {
        memset(bytes[i], (int)i + 1, PAGE);
        write_page(&core, i, bytes[i]);
    }
    HAVE(famsync_core_staged(core, &core.at) == 3 && famsync_core_acknowledged(core, &core.at) == 0);
    unsigned supplied = 0;
    uint32_t mark = commit(&core, &supplied);
    HAVE(supplied == 0);
    HAVE(famsync_core_waiting(core, &core.at) > 0 && famsync_core_acknowledged(core, &core.at) == 0);
    HAVE(famsync_core_staged(core, &core.at) == 0 && famsync_core_unwritten(core, &core.at) == 3);
    drain(&core);
    HAVE(famsync_core_acknowledged(core, &core.at) == mark);
    write_page(&core, 3, bytes[0]); /* is lost */
    famsync_core_close(core);

    core = begin();
    for (unsigned i = 0; i < 4; i++) {
        static const uint8_t zeros[PAGE];
        read_page(&core, i, found);
        HAVE(memcmp(found, i < 3 ? bytes[i] : zeros, PAGE) == 0);
    }
    write_home(&core);
    uint64_t ring = 1, used = 2, commits = 3;
    HAVE(famsync_core_log(core, &ring, &used, &commits, &core.at) == FAMSYNC_CORE_NONE);
    HAVE(ring == 1 && used == 2 && commits == 3);
    famsync_core_close(core);
}

/* A mark is acknowledged by the last of the calls that waited after its commit, though later ones wait. */
static void acknowledges_before_later_calls(void)
{
    static const uint8_t bytes[PAGE] = {1};
    famsync_core core;
    format();
    core = begin();
    write_page(&core, 0, bytes);
    unsigned supplied = 0;
    uint32_t mark = commit(&core, &supplied), wanted = 0;
    int64_t needed = famsync_core_waiting(core, &core.at);
    HAVE(famsync_core_write_out(core, 100, &wanted, &core.at) == FAMSYNC_CORE_NONE);
    HAVE(needed > 0 && famsync_core_waiting(core, &core.at) > needed);
    for (int64_t made = 0; made < needed; made++) {
        HAVE(famsync_core_acknowledged(core, &core.at) == 0);
        HAVE(make_call(&core));
    }
    HAVE(famsync_core_waiting(core, &core.at) > 0 && famsync_core_acknowledged(core, &core.at) == mark);
    drain(&core);
    HAVE(famsync_core_acknowledged(core, &core.at) == mark);
    famsync_core_close(core);
}

static void have_log(famsync_core *core, uint64_t in_use, uint64_t in_log)
{
    uint64_t ring = 0, used = 0, commits = 0;
    HAVE(famsync_core_log(*core, &ring, &used, &commits, &core->at) == FAMSYNC_CORE_OK);
    HAVE(ring == RING && used == in_use && commits == in_log);
    HAVE(famsync_core_unwritten(*core, &core->at) == (int64_t)in_use);
}

/* Commits that each take 21 blocks of a log of 64: a fourth one has room only after steps. The host keeps no block of
   the log, so both want some. */
static void fills_a_log(famsync_core *core)
{
    static uint8_t bytes[PAGE];
    unsigned supplied = 0;
    for (uint32_t i = 0; i < 4; i++) {
        have_log(core, 21 * i, i);
        for (uint32_t page = 0; page < 20; page++) {
            memset(bytes, (int)(i + 1), sizeof bytes);
            write_page(core, page + i, bytes);
        }
        for (uint32_t block = 4; block < 4 + RING; block++)
            famsync_core_forget(*core, block, &core->at);
        uint32_t mark = commit(core, &supplied);
        HAVE(famsync_core_acknowledged(*core, &core->at) == mark - 1);
        drain(core);
        HAVE(famsync_core_acknowledged(*core, &core->at) == mark && mark == i + 1);
    }
    HAVE(supplied > 0);
}

static void finds_what_a_log_has(void)
{
    static uint8_t found[PAGE];
    uint64_t length = 0, pages = 0;
    uint32_t wanted = 0;
    unsigned supplied = 0;
    famsync_core core;
    format_log();
    core = begin();
    HAVE(famsync_core_frames(core, &core.at) == RING - 3);
    fills_a_log(&core);
    HAVE(famsync_core_set_length(core, 0, PAGE + 1, &wanted, &core.at) == FAMSYNC_CORE_OK);
    HAVE(famsync_core_staged(core, &core.at) == 0);
    commit(&core, &supplied);
    drain(&core);
    famsync_core_close(core);

    core = begin();
    have_log(&core, 0, 0);
    HAVE(famsync_core_file(core, 0, &length, &pages, &core.at) == FAMSYNC_CORE_OK);
    HAVE(length == PAGE + 1 && pages == LOG_PAGES);
    read_page(&core, 0, found);
    HAVE(found[0] == 1 && found[PAGE - 1] == 1);
    read_page(&core, 1, found);
    HAVE(found[0] == 2 && found[1] == 0);
    write_page(&core, 0, found);
    commit(&core, &supplied);
    drain(&core);
    have_log(&core, 2, 1);
    write_home(&core);
    have_log(&core, 0, 0);
    HAVE(volume[(size_t)LOG_HOME * PAGE] == 2);
    famsync_core_close(core);
}

static void measure(uint32_t count)
{
    static uint8_t page[PAGE];
    unsigned supplied = 0;
    famsync_core core;
    format();
    core = begin();
    for (uint32_t round = 0; round < 2; round++) {
        memset(page, (int)round + 1, sizeof page);
        for (uint32_t i = 0; i < count; i++)
            write_page(&core, i, page);
        commit(&core, &supplied);
        drain(&core);
        write_home(&core);
    }
    famsync_core_close(core);
}

int main(int count, char **argument)
{
    if (count > 1) {
        measure((uint32_t)strtoul(argument[1], NULL, 10));
    } else {
        refuses_what_is_no_volume();
        finds_what_was_committed();
        acknowledges_before_later_calls();
        finds_what_a_log_has();
    }
    printf("%u writes, %u syncs\n", writes, syncs);
    return 0;
}
