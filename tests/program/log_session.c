/*
 * Makes the steps of a stored run of a volume with a log (docs/RUNS.md) on the proved core, for `stored_runs`.
 *
 *   log_session VOLUME MOST
 *
 * It reads the volume's bytes, opens them with at most MOST pages in a commit, and makes the recorded calls on its copy
 * in memory. Then it makes the steps of its input, a line each: `put FILE PAGE BYTES`, `read FILE PAGE`,
 * `length FILE BYTES`, `commit` and `step`. Before each step the core forgets each block that it can, so that it wants
 * each block that the step reads.
 *
 * It prints a line for each device call: `read OFFSET LENGTH`, `write OFFSET BYTES` or `sync`. The calls of the opening
 * are its writes and syncs. `answer WORDS` ends the opening and each step.
 *
 * The core doesn't say which step `famsync_core_write_out` has made. So the word follows from the step's calls, and
 * from whether the last word ended a round. If the log has no room for a commit, the core first makes steps. So a copy
 * of the process tries the commit: if its first write isn't into the log, the answer is `busy`, and nothing has
 * changed.
 */
#define _DEFAULT_SOURCE
#include "famsync_core.h"

#include <inttypes.h>
#include <stdarg.h>
#include <stdbool.h>
#include <stdio.h>
#include <stdlib.h>
#include <string.h>
#include <sys/wait.h>
#include <unistd.h>

enum { PAGE = 4096, LINE = 3 * PAGE, LOG = 4, TRIED_BUSY = 7 };

/* The calls of a step that say which one it was. */
struct made {
    int reads, writes, syncs;
    uint64_t first_write;
    bool selects;
};

static famsync_core core;
static uint8_t *volume;
static uint32_t blocks;
static struct made made;
/* Steps have listed commits to write home, and haven't moved the start. */
static bool in_round;
static bool quiet;

static void want(bool holds, const char *what)
{
    if (holds)
        return;
    fprintf(stderr, "log_session: %s\n", what);
    exit(2);
}

static const char *word_of(int64_t code)
{
    static const struct {
        int64_t code;
        const char *word;
    } WORDS[] = {
        {FAMSYNC_CORE_NOMEMORY, "outofmemory"},
        {FAMSYNC_CORE_NOTAVOLUME, "notavolume"},
        {FAMSYNC_CORE_DAMAGED, "damaged"},
        {FAMSYNC_CORE_NOFRAME, "noframe"},
        {FAMSYNC_CORE_DEVICE, "device"},
        {FAMSYNC_CORE_BROKEN, "broken"},
        {FAMSYNC_CORE_EINVAL, "einval"},
        {FAMSYNC_CORE_NOFILE, "nofile"},
        {FAMSYNC_CORE_BUSY, "busy"},
    };
    for (size_t i = 0; i < sizeof WORDS / sizeof WORDS[0]; i++)
        if (WORDS[i].code == code)
            return WORDS[i].word;
    return "other";
}

static void say(const char *form, ...)
{
    va_list words;
    va_start(words, form);
    if (!quiet)
        vprintf(form, words);
    va_end(words);
}

static void say_bytes(const uint8_t *bytes, uint64_t count)
{
    for (uint64_t i = 0; i < count; i++)
        say("%02x", bytes[i]);
    say("\n");
}

static void make_write(uint64_t offset, const uint8_t *bytes, uint64_t length)
{
    want(offset + length <= (uint64_t)blocks * PAGE, "a write goes past the end");
    if (made.writes++ == 0)
        made.first_write = offset;
    made.selects = made.selects || offset / PAGE == 1;
    memcpy(volume + offset, bytes, length);
    say("write %" PRIu64 " ", offset);
    say_bytes(bytes, length);
}

/* Makes the calls that wait, each by itself and in order. */
static void make_calls(void)
{
    uint32_t kind;
    uint64_t offset, length;
    const uint8_t *bytes;
    while (famsync_core_call(core, 0, &kind, &offset, &bytes, &length, &core.at) == FAMSYNC_CORE_OK) {
        if (kind == FAMSYNC_CORE_CALL_WRITE) {
            make_write(offset, bytes, length);
        } else {
            made.syncs++;
            say("sync\n");
        }
        want(famsync_core_carried_out(core, 1, &core.at) == FAMSYNC_CORE_OK, "a call isn't taken for made");
    }
}

static void supply(uint32_t block)
{
    want(famsync_core_supply(core, block, volume + (size_t)block * PAGE, PAGE, &core.at) == FAMSYNC_CORE_OK,
         "a block isn't taken");
}

/* Supplies a block that a step reads with a device call. */
static void read_block(uint32_t block)
{
    made.reads++;
    say("read %" PRIu64 " %d\n", (uint64_t)block * PAGE, PAGE);
    supply(block);
}

static void forget_blocks(void)
{
    for (uint32_t block = 0; block < blocks; block++)
        want(famsync_core_forget(core, block, &core.at) >= 0, "a block isn't judged");
}

static void answer_read(uint32_t file, uint64_t page)
{
    uint8_t bytes[PAGE];
    uint32_t wanted;
    int32_t code;
    while ((code = famsync_core_read(core, file, page, bytes, PAGE, &wanted, &core.at)) == FAMSYNC_CORE_WANTED)
        read_block(wanted);
    if (code != FAMSYNC_CORE_OK) {
        say("answer %s\n", word_of(code));
        return;
    }
    say("answer page ");
    say_bytes(bytes, PAGE);
}

static void answer_put(uint32_t file, uint64_t page, const char *digits)
{
    uint8_t bytes[PAGE];
    unsigned byte;
    for (int i = 0; i < PAGE; i++) {
        want(sscanf(digits + 2 * i, "%2x", &byte) == 1, "a page has 4,096 bytes");
        bytes[i] = (uint8_t)byte;
    }
    int32_t code = famsync_core_write(core, file, page, bytes, PAGE, &core.at);
    say("answer %s\n", code == FAMSYNC_CORE_OK ? "stored" : word_of(code));
}

static void answer_length(uint32_t file, uint64_t length)
{
    uint32_t wanted;
    int32_t code;
    while ((code = famsync_core_set_length(core, file, length, &wanted, &core.at)) == FAMSYNC_CORE_WANTED)
        read_block(wanted);
    say("answer %s\n", code == FAMSYNC_CORE_OK ? "resized" : word_of(code));
}

/* A commit needs the other bytes of the blocks that it writes in part. The core reads these, and a device doesn't. */
static int32_t commit(uint32_t *mark)
{
    uint32_t wanted;
    int32_t code;
    while ((code = famsync_core_commit(core, mark, &wanted, &core.at)) == FAMSYNC_CORE_WANTED)
        supply(wanted);
    make_calls();
    return code;
}

/* Whether the core makes steps before the commit. It then writes homes or a start first. */
static bool needs_steps(void)
{
    uint64_t ring, used, commits;
    int status;
    want(famsync_core_log(core, &ring, &used, &commits, &core.at) == FAMSYNC_CORE_OK, "the volume has no log");
    fflush(stdout);
    pid_t copy = fork();
    want(copy >= 0, "no process is made");
    if (copy == 0) {
        uint32_t mark;
        quiet = true;
        commit(&mark);
        uint64_t block = made.first_write / PAGE;
        _exit(made.writes > 0 && (block < LOG || block >= LOG + ring) ? TRIED_BUSY : 0);
    }
    want(waitpid(copy, &status, 0) == copy && WIFEXITED(status), "the copy doesn't end");
    return WEXITSTATUS(status) == TRIED_BUSY;
}

static void answer_commit(void)
{
    uint32_t mark = 0;
    if (needs_steps()) {
        say("answer busy\n");
        return;
    }
    int32_t code = commit(&mark);
    in_round = in_round && !made.selects;
    if (code == FAMSYNC_CORE_OK)
        want(famsync_core_acknowledged(core, &core.at) == mark, "a commit whose calls are made isn't acknowledged");
    if (code == FAMSYNC_CORE_OK)
        say("answer committed %" PRIu32 "\n", mark);
    else
        say("answer %s\n", word_of(code));
}

/* The word for a step that made these calls. */
static const char *word_of_step(void)
{
    if (made.selects)
        return "moved";
    if (made.syncs > 0)
        return "synced";
    if (made.writes > 0 && made.reads == 0)
        return "wrote";
    return in_round ? "copied" : "began";
}

static void answer_step(void)
{
    uint32_t wanted;
    int32_t code = famsync_core_write_out(core, 0, &wanted, &core.at);
    if (code == FAMSYNC_CORE_NONE) {
        say("answer idle\n");
        return;
    }
    while ((code = famsync_core_write_out(core, 1, &wanted, &core.at)) == FAMSYNC_CORE_WANTED)
        read_block(wanted);
    make_calls();
    want(made.selects || code != FAMSYNC_CORE_NONE, "the last step doesn't move the start");
    const char *word = word_of_step();
    in_round = strcmp(word, "moved") != 0;
    say("answer %s\n", code == FAMSYNC_CORE_OK || code == FAMSYNC_CORE_NONE ? word : word_of(code));
}

static void answer(const char *line)
{
    uint32_t file;
    uint64_t number;
    int at = 0;
    made = (struct made){0};
    forget_blocks();
    if (sscanf(line, "put %" SCNu32 " %" SCNu64 " %n", &file, &number, &at) == 2)
        answer_put(file, number, line + at);
    else if (sscanf(line, "read %" SCNu32 " %" SCNu64, &file, &number) == 2)
        answer_read(file, number);
    else if (sscanf(line, "length %" SCNu32 " %" SCNu64, &file, &number) == 2)
        answer_length(file, number);
    else if (strcmp(line, "commit\n") == 0)
        answer_commit();
    else if (strcmp(line, "step\n") == 0)
        answer_step();
    else
        want(false, "a line isn't a step");
}

static void read_volume(const char *path)
{
    FILE *file = fopen(path, "rb");
    want(file && fseek(file, 0, SEEK_END) == 0, "the volume isn't there");
    long length = ftell(file);
    want(length >= PAGE, "the volume is too short");
    blocks = (uint32_t)(length / PAGE);
    volume = malloc((size_t)length);
    rewind(file);
    want(volume && fread(volume, 1, (size_t)length, file) == (size_t)length, "the volume isn't read");
    fclose(file);
}

int main(int count, char **words)
{
    static char line[LINE];
    uint32_t most, wanted;
    int32_t code;
    want(count == 3 && sscanf(words[2], "%" SCNu32, &most) == 1, "usage: log_session VOLUME MOST");
    read_volume(words[1]);
    want(famsync_core_begin(blocks, &core.at) == FAMSYNC_CORE_OK, "it doesn't begin");
    while ((code = famsync_core_open(core, most, &wanted, &core.at)) == FAMSYNC_CORE_WANTED)
        supply(wanted);
    make_calls();
    say("answer %s\n", code == FAMSYNC_CORE_OK ? "open" : word_of(code));
    while (code == FAMSYNC_CORE_OK && fgets(line, sizeof line, stdin))
        answer(line);
    famsync_core_close(core);
    free(volume);
    return 0;
}
