/*
 * A session of the proved core, led by the lines that `famsync serve` takes: each request is carried out by the calls
 * of famsync_core.h, and each call that they record is made on the volume's file before the reply is printed.
 *
 *   core_session VOLUME [forget] [dies:N]
 *
 *   forget    after each request the core forgets each block that it can, so that it wants it again
 *   dies:N    the process ends with status 9 in the place of its Nth call
 *
 * The core has pages of files, and `serve` addresses: this program keeps where each file is mapped. A page that it
 * stores a part of is read before. The lines are those for which the core has calls: the shape, of which `frames` are
 * the most pages of a commit; `map` into space 1, of a file from its begin; `loads`; `stores`, of no byte behind the
 * file's end in its last page; `commit`; `setlength`; and `flush` or a list of it. Replies are those of `serve`, but
 * where the core says less: `set` of a length, `written` of steps of write-outs.
 *
 * Three lines more are taken: `calls` is answered with the number of calls that were made, `frames` with the most pages
 * of a commit, and `staged` with the number of pages that the next commit has. A volume that isn't opened is answered
 * `refused CAUSE`.
 */
#define _DEFAULT_SOURCE
#include "famsync_core.h"

#include <errno.h>
#include <fcntl.h>
#include <inttypes.h>
#include <stdio.h>
#include <stdlib.h>
#include <string.h>
#include <sys/stat.h>
#include <unistd.h>

#define PAGE 4096
/* The most bytes of a range, and the most characters of a line. */
#define RANGE 65536
#define LINE (2 * RANGE + 256)
/* The first address that there isn't. */
#define LAST (UINT64_C(1) << 47)
#define MOST_FILES 64

enum { DIED = 9 };

static famsync_core core;
static int file;
static uint32_t blocks;
static bool forgets;
static long calls, dies;
/* Where each file is mapped, and how many bytes from there on. */
static uint64_t address_of[MOST_FILES], mapped[MOST_FILES];

static void want(bool holds, const char *what)
{
    if (holds)
        return;
    fprintf(stderr, "core_session: %s\n", what);
    exit(2);
}

/* The word that `serve` has for a code. */
static const char *word_of(int64_t code)
{
    static const struct {
        int64_t code;
        const char *word;
    } WORDS[] = {
        {FAMSYNC_CORE_ARGUMENT, "argument"},     {FAMSYNC_CORE_NOMEMORY, "nomemory"}, {FAMSYNC_CORE_ORDER, "order"},
        {FAMSYNC_CORE_NOTAVOLUME, "notavolume"}, {FAMSYNC_CORE_DAMAGED, "damaged"},   {FAMSYNC_CORE_NOFRAME, "noframe"},
        {FAMSYNC_CORE_DEVICE, "device"},         {FAMSYNC_CORE_BROKEN, "broken"},     {FAMSYNC_CORE_EINVAL, "einval"},
        {FAMSYNC_CORE_NOFILE, "nofile"},         {FAMSYNC_CORE_BUSY, "busy"},         {FAMSYNC_CORE_OTHER, "other"},
    };
    for (size_t i = 0; i < sizeof WORDS / sizeof WORDS[0]; i++)
        if (WORDS[i].code == code)
            return WORDS[i].word;
    return "unknown";
}

/* Makes the calls that wait, each by itself and in order. */
static void make_calls(void)
{
    uint32_t kind;
    uint64_t offset, length;
    const uint8_t *bytes;
    while (famsync_core_call(core, 0, &kind, &offset, &bytes, &length, &core.at) == FAMSYNC_CORE_OK) {
        if (calls + 1 == dies)
            _exit(DIED);
        if (kind == FAMSYNC_CORE_CALL_WRITE)
            want(pwrite(file, bytes, length, (off_t)offset) == (ssize_t)length, "a write failed");
        else
            want(kind == FAMSYNC_CORE_CALL_SYNC && fdatasync(file) == 0, "a sync failed");
        calls++;
        want(famsync_core_carried_out(core, 1, &core.at) == FAMSYNC_CORE_OK, "a call isn't taken for made");
    }
    want(famsync_core_waiting(core, &core.at) == 0, "a call waits that isn't shown");
}

/* Supplies a block that the core wants, which it doesn't know. */
static void supply(uint32_t block)
{
    uint8_t bytes[PAGE];
    want(famsync_core_is_known(core, block, &core.at) == 0, "a block that is known is wanted");
    want(pread(file, bytes, PAGE, (off_t)block * PAGE) == PAGE, "a read failed");
    want(famsync_core_supply(core, block, bytes, PAGE, &core.at) == FAMSYNC_CORE_OK, "a block isn't taken");
}

static void forget_blocks(void)
{
    for (uint32_t block = 0; forgets && block < blocks; block++)
        want(famsync_core_forget(core, block, &core.at) >= 0, "a block isn't judged");
}

/* Opens the volume, with the blocks that the core wants. Those of files are forgotten then, so that they are wanted
   where they are read. */
static int64_t open_volume(uint32_t pages)
{
    uint32_t wanted;
    int64_t code;
    while ((code = famsync_core_open(core, pages, &wanted, &core.at)) == FAMSYNC_CORE_WANTED) {
        want(famsync_core_waiting(core, &core.at) == 0, "a call is recorded where a block is wanted");
        supply(wanted);
    }
    make_calls();
    for (int64_t block = famsync_core_head(core, &core.at); block >= 0 && block < blocks; block++)
        want(famsync_core_forget(core, (uint32_t)block, &core.at) >= 0, "a block isn't judged");
    return code;
}

/* Prints the files, as `serve` does at the start. */
static void greet(void)
{
    int64_t files = famsync_core_files(core, &core.at);
    printf("ready %" PRId64 "\n", files);
    for (uint32_t i = 0; i < files; i++) {
        uint8_t name[32];
        uint64_t length = 0, pages;
        int64_t count = famsync_core_file_name(core, i, name, sizeof name, &core.at);
        want(count > 0 && famsync_core_file(core, i, &length, &pages, &core.at) == FAMSYNC_CORE_OK, "it lacks a file");
        printf("%.*s %" PRIu64 "\n", (int)count, (const char *)name, length);
    }
}

static void begin(const char *path)
{
    char line[LINE];
    uint32_t frames = 0;
    struct stat found;
    file = open(path, O_RDWR | O_CLOEXEC);
    want(file >= 0 && fstat(file, &found) == 0 && found.st_size % PAGE == 0, "the volume isn't there");
    blocks = (uint32_t)(found.st_size / PAGE);
    want(fgets(line, sizeof line, stdin) &&
             sscanf(line, "{\"cpus\":1,\"tlb\":64,\"frames\":%" SCNu32 ",\"copies\":0}", &frames) == 1,
         "the first line isn't a shape");
    want(famsync_core_begin(blocks, &core.at) == FAMSYNC_CORE_OK, "it doesn't begin");
    int64_t code = open_volume(frames);
    if (code == FAMSYNC_CORE_OK) {
        greet();
        return;
    }
    printf("refused %s\n", word_of(code));
    famsync_core_close(core);
    exit(3);
}

static void print_hexadecimal(const uint8_t *bytes, uint64_t count)
{
    static const char DIGITS[] = "0123456789abcdef";
    if (count > 0)
        putchar(' ');
    for (uint64_t i = 0; i < count; i++) {
        putchar(DIGITS[bytes[i] / 16]);
        putchar(DIGITS[bytes[i] % 16]);
    }
}

/* The bytes of a range that lie in one page of a file; or why there are none. */
struct part {
    uint32_t number;
    uint64_t page;
    size_t begin, count;
    const char *refused;
};

static struct part part_at(uint64_t address, uint64_t count)
{
    struct part part = {.refused = "segvmaperr"};
    uint64_t at;
    if (address >= LAST)
        part.refused = "einval";
    for (uint32_t number = 0; number < MOST_FILES; number++) {
        if (address < address_of[number] || address - address_of[number] >= mapped[number])
            continue;
        at = address - address_of[number];
        part = (struct part){.number = number, .page = at / PAGE, .begin = at % PAGE};
        part.count = count < PAGE - part.begin ? count : PAGE - part.begin;
    }
    return part;
}

/* A page that begins at the file's end or behind it. */
static const char *word_of_page(int32_t code)
{
    return code == FAMSYNC_CORE_OK ? NULL : code == FAMSYNC_CORE_EINVAL ? "busadrerr" : word_of(code);
}

/* A block that a page wants is supplied. */
static const char *read_page(struct part part, uint8_t page[PAGE])
{
    uint32_t wanted;
    int32_t code;
    while ((code = famsync_core_read(core, part.number, part.page, page, PAGE, &wanted, &core.at)) ==
           FAMSYNC_CORE_WANTED)
        supply(wanted);
    return word_of_page(code);
}

/* Whether the page is wanted doesn't matter where all of it is written. */
static const char *write_part(struct part part, const uint8_t *bytes)
{
    uint8_t page[PAGE];
    const char *refused = part.count == PAGE ? NULL : read_page(part, page);
    if (refused)
        return refused;
    memcpy(page + part.begin, bytes, part.count);
    return word_of_page(famsync_core_write(core, part.number, part.page, page, PAGE, &core.at));
}

static const char *read_part(struct part part, uint8_t *bytes)
{
    uint8_t page[PAGE];
    const char *refused = read_page(part, page);
    if (!refused)
        memcpy(bytes, page + part.begin, part.count);
    return refused;
}

static void load(uint64_t address, uint64_t count)
{
    static uint8_t bytes[RANGE];
    uint64_t done = 0;
    const char *refused = NULL;
    want(count <= RANGE, "the range is too long");
    while (done < count && !refused) {
        struct part part = part_at(address + done, count - done);
        refused = part.refused ? part.refused : read_part(part, bytes + done);
        done += refused ? 0 : part.count;
    }
    want(famsync_core_waiting(core, &core.at) == 0, "a read records a call");
    if (refused)
        printf("%s after %" PRIu64, refused, done);
    else
        printf("loaded");
    print_hexadecimal(bytes, done);
    putchar('\n');
}

static uint8_t digit_of(char digit)
{
    want((digit >= '0' && digit <= '9') || (digit >= 'a' && digit <= 'f'), "a byte isn't hexadecimal");
    return (uint8_t)(digit <= '9' ? digit - '0' : digit - 'a' + 10);
}

/* The bytes that a text in hexadecimal says, which ends in quotes. */
static uint64_t bytes_of(const char *text, uint8_t *bytes)
{
    uint64_t count = 0;
    for (; *text != '"'; text += 2) {
        want(count < RANGE, "the range is too long");
        bytes[count++] = (uint8_t)(digit_of(text[0]) << 4 | digit_of(text[1]));
    }
    return count;
}

/* Of the last page `serve` keeps what is stored behind the file's end as long as it is in memory, and the core doesn't.
 */
static void want_within_file(struct part part)
{
    uint64_t length, pages, end = part.page * PAGE + part.begin + part.count;
    want(famsync_core_file(core, part.number, &length, &pages, &core.at) == FAMSYNC_CORE_OK, "it lacks a file");
    want(end <= length || part.page * PAGE >= length, "bytes behind the file's end are stored");
}

static void store(uint64_t address, const char *text)
{
    static uint8_t bytes[RANGE];
    uint64_t done = 0, count = bytes_of(text, bytes);
    const char *refused = NULL;
    while (done < count && !refused) {
        struct part part = part_at(address + done, count - done);
        if (!part.refused)
            want_within_file(part);
        refused = part.refused ? part.refused : write_part(part, bytes + done);
        done += refused ? 0 : part.count;
    }
    want(famsync_core_waiting(core, &core.at) == 0, "a write records a call");
    if (refused)
        printf("%s after %" PRIu64 "\n", refused, done);
    else
        printf("stored %" PRIu64 "\n", done);
}

/* Rule: deferred acknowledgement */
/* A mark is acknowledged once the calls that waited after its commit are made, and no sooner. */
static void commit(void)
{
    uint32_t mark = 0;
    uint32_t wanted;
    int32_t code = famsync_core_commit(core, &mark, &wanted, &core.at);
    bool early = famsync_core_waiting(core, &core.at) > 0 && famsync_core_acknowledged(core, &core.at) == mark;
    make_calls();
    if (code != FAMSYNC_CORE_OK)
        printf("%s\n", word_of(code));
    else if (early || famsync_core_acknowledged(core, &core.at) != mark)
        printf("committed %" PRIu32 ", acknowledged %s\n", mark, early ? "too early" : "never");
    else
        printf("committed %" PRIu32 "\n", mark);
}

static void set_length(uint32_t number, uint64_t length)
{
    uint32_t wanted;
    int32_t code;
    while ((code = famsync_core_set_length(core, number, length, &wanted, &core.at)) == FAMSYNC_CORE_WANTED)
        supply(wanted);
    want(famsync_core_waiting(core, &core.at) == 0, "a length records a call");
    printf("%s\n", code == FAMSYNC_CORE_OK ? "set" : word_of(code));
}

/* Each file is mapped once, from its begin and from a page on. */
static void map(const char *line)
{
    uint64_t address, length;
    uint32_t number;
    want(sscanf(line, "[0,\"map\",1,%" SCNu64 ",%" SCNu64 ",%" SCNu32 ",0,\"rw\",\"rw\"]", &address, &length,
                &number) == 3 &&
             number < MOST_FILES && mapped[number] == 0 && address % PAGE == 0,
         "the map isn't one that is kept here");
    address_of[number] = address;
    mapped[number] = (length + PAGE - 1) / PAGE * PAGE;
    printf("mapped\n");
}

/* Which pages are staged, one by one, are as many as there are. */
static void print_staged(void)
{
    int64_t staged = famsync_core_staged(core, &core.at), found = 0;
    for (uint32_t number = 0; number < famsync_core_files(core, &core.at); number++) {
        uint64_t length, pages = 0;
        want(famsync_core_file(core, number, &length, &pages, &core.at) == FAMSYNC_CORE_OK, "it lacks a file");
        for (uint64_t page = 0; page < pages; page++)
            found += famsync_core_is_staged(core, number, page, &core.at);
    }
    want(found == staged, "other pages are staged than it says");
    printf("staged %" PRId64 "\n", staged);
}

/* As many steps of write-outs as the line has. */
static void write_out(const char *line)
{
    uint32_t most = 0;
    for (const char *at = line; (at = strstr(at, "\"flush\"")); at++)
        most++;
    uint32_t wanted;
    int32_t code = famsync_core_write_out(core, most, &wanted, &core.at);
    make_calls();
    bool written = code == FAMSYNC_CORE_OK || code == FAMSYNC_CORE_NONE;
    if (written)
        want((code == FAMSYNC_CORE_OK) == (famsync_core_unwritten(core, &core.at) > 0), "it reports what is left");
    printf("%s\n", written ? "written" : word_of(code));
}

static void answer(const char *line)
{
    uint64_t address, length;
    uint32_t number;
    int at = 0;
    if (sscanf(line, "[0,\"loads\",%" SCNu64 ",%" SCNu64 "]", &address, &length) == 2)
        load(address, length);
    else if (sscanf(line, "[0,\"stores\",%" SCNu64 ",\"%n", &address, &at) == 1 && at > 0)
        store(address, line + at);
    else if (sscanf(line, "[0,\"setlength\",%" SCNu32 ",%" SCNu64 "]", &number, &length) == 2)
        set_length(number, length);
    else if (strcmp(line, "[0,\"commit\"]\n") == 0)
        commit();
    else if (strstr(line, "\"flush\""))
        write_out(line);
    else if (strcmp(line, "calls\n") == 0)
        printf("calls %ld\n", calls);
    else if (strcmp(line, "frames\n") == 0)
        printf("frames %" PRId64 "\n", famsync_core_frames(core, &core.at));
    else if (strcmp(line, "staged\n") == 0)
        print_staged();
    else
        map(line);
}

int main(int count, char **words)
{
    static char line[LINE];
    want(count >= 2, "usage: core_session VOLUME [forget] [dies:N]");
    for (int i = 2; i < count; i++)
        if (strcmp(words[i], "forget") == 0)
            forgets = true;
        else
            want(sscanf(words[i], "dies:%ld", &dies) == 1, "a word isn't one of these");
    begin(words[1]);
    fflush(stdout);
    while (fgets(line, sizeof line, stdin)) {
        answer(line);
        forget_blocks();
        fflush(stdout);
    }
    famsync_core_close(core);
    return 0;
}
