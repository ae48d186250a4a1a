/*
 * A session whose system calls `tests/faults/power_cut` records, and one that says what a volume contains.
 *
 *   session VOLUME make LAYOUT RECORDS FILES  makes a volume
 *   session VOLUME work SEED COMMITS MOST     commits at random: each commit stores to at most MOST pages, in plain
 *                                             memory or by famsync_write, and some set a length
 *   session VOLUME find                       reads paths of volumes, a line each, and prints what each one contains
 *
 * What a volume contains is printed as a digest of the lengths and the bytes of all files. `work` computes it from a
 * copy of its own, which it keeps beside the library. It appends to the file that LOG names `C NUMBER DIGEST` before a
 * commit and `A NUMBER` after its acknowledgement, or `F NUMBER` if the disk was full. Then the commit is made again,
 * or rolled back, or its changes wait for the next one. The preloaded library `record.c` appends the calls of the
 * system there.
 */
#include "test.h"

#include <inttypes.h>
#include <stdatomic.h>

#define FILES_MOST 4

struct model {
    unsigned count;
    uint64_t length[FILES_MOST], capacity[FILES_MOST];
    unsigned char *bytes[FILES_MOST];
};

static uint64_t state;

/* A random number below `bound` (splitmix64). */
static uint64_t below(uint64_t bound)
{
    uint64_t z = state += 0x9e3779b97f4a7c15u;
    z = (z ^ (z >> 30)) * 0xbf58476d1ce4e5b9u;
    z = (z ^ (z >> 27)) * 0x94d049bb133111ebu;
    return (z ^ (z >> 31)) % bound;
}

/* Adds bytes to a digest (FNV-1a over words of eight bytes, then over the bytes that remain). */
static uint64_t digest_of(uint64_t digest, const unsigned char *bytes, uint64_t count)
{
    uint64_t at = 0, word;
    for (; at + 8 <= count; at += 8) {
        memcpy(&word, bytes + at, 8);
        digest = (digest ^ word) * 0x100000001b3u;
    }
    for (; at < count; at++)
        digest = (digest ^ bytes[at]) * 0x100000001b3u;
    return digest;
}

static uint64_t with_file(uint64_t digest, uint64_t length, const unsigned char *bytes)
{
    digest = digest_of(digest, (const unsigned char *)&length, sizeof length);
    return digest_of(digest, bytes, length);
}

static uint64_t digest_of_model(const struct model *model)
{
    uint64_t digest = 0xcbf29ce484222325u;
    for (unsigned file = 0; file < model->count; file++)
        digest = with_file(digest, model->length[file], model->bytes[file]);
    return digest;
}

static void append(const char *line)
{
    static int file = -1;
    if (file < 0)
        file = open(getenv("LOG"), O_WRONLY | O_APPEND | O_CLOEXEC);
    WANT(write(file, line, strlen(line)) == (ssize_t)strlen(line));
}

static famsync_memory *memory_of(famsync *handle, unsigned file)
{
    famsync_memory *memory;
    WANT_CODE(famsync_memory_open(handle, famsync_file_name(handle, file), &memory), FAMSYNC_OK);
    return memory;
}

/* Copies a file of the volume into the model: its bytes as they were committed. */
static void begin_file(famsync *handle, struct model *model, unsigned file, uint64_t capacity)
{
    model->length[file] = famsync_file_length(handle, file);
    model->capacity[file] = capacity;
    WANT((model->bytes[file] = calloc(1, capacity + 1)) != NULL);
    if (model->length[file] == 0)
        return;
    famsync_memory *memory = memory_of(handle, file);
    memcpy(model->bytes[file], famsync_memory_at(memory), model->length[file]);
    WANT_CODE(famsync_memory_close(memory), FAMSYNC_OK);
}

/* Stores some bytes to one page of a file: in the model, and in plain memory, or by a call without that. */
static void store_once(famsync *handle, struct model *model, unsigned file, unsigned char *memory, uint64_t page)
{
    uint64_t first = page * 4096, end = first + 4096;
    if (end > model->length[file])
        end = model->length[file];
    uint64_t count = 1 + below(below(4) ? 64 : end - first);
    if (count > end - first)
        count = end - first;
    uint64_t at = first + below(end - first - count + 1), word = below(UINT64_MAX);
    for (uint64_t i = 0; i < count; i++)
        model->bytes[file][at + i] = (unsigned char)(word >> (8 * (i % 8)));
    if (memory)
        memcpy(memory + at, model->bytes[file] + at, count);
    else
        WANT_CODE(famsync_write(handle, file, at, model->bytes[file] + at, count, NULL), FAMSYNC_OK);
}

/* Whether the next commit has room for another page. */
static bool has_room(famsync *handle)
{
    struct famsync_stat stat = {.size = sizeof stat};
    WANT_CODE(famsync_stat(handle, &stat), FAMSYNC_OK);
    return stat.staged < stat.frames;
}

static void store_to_file(famsync *handle, struct model *model, unsigned file, famsync_memory *memory, uint64_t most)
{
    uint64_t pages = (model->length[file] + 4095) / 4096, count = 1 + below(most < pages ? most : pages);
    uint64_t first = below(pages), step = below(3) ? 1 : 1 + below(pages);
    for (uint64_t i = 0; i < count && has_room(handle); i++)
        store_once(handle, model, file, famsync_memory_at(memory), (first + i * step) % pages);
}

/* Sets a length at random. Where it adds more pages than a commit takes, nothing changes. */
static void set_length(famsync *handle, struct model *model, unsigned file)
{
    uint64_t length = below(4) ? model->length[file] + below(9000) : below(model->capacity[file] + 1);
    if (length > model->capacity[file])
        length = model->capacity[file];
    int code = famsync_setlength(handle, famsync_file_name(handle, file), length);
    if (code == FAMSYNC_NOFRAME)
        return;
    WANT_CODE(code, FAMSYNC_OK);
    if (length < model->length[file])
        memset(model->bytes[file] + length, 0, model->length[file] - length);
    model->length[file] = length;
}

/* Whether the disk has no room for further blocks of the volume. */
static atomic_bool is_full;

int fallocate(int file, int mode, off_t offset, off_t length)
{
    if (!atomic_load(&is_full))
        return (int)syscall(SYS_fallocate, file, mode, offset, length);
    errno = ENOSPC;
    return -1;
}

static void append_number(char kind, uint64_t number)
{
    char line[64];
    snprintf(line, sizeof line, "%c %" PRIu64 "\n", kind, number);
    append(line);
}

/* Commits. Whether the commit was made: the disk may be full. */
static bool commit(famsync *handle, const struct model *model, uint64_t number, bool full)
{
    char line[64];
    snprintf(line, sizeof line, "C %" PRIu64 " %016" PRIx64 "\n", number, digest_of_model(model));
    append(line);
    atomic_store(&is_full, full);
    int code = famsync_msync(handle, NULL);
    atomic_store(&is_full, false);
    WANT(code == FAMSYNC_OK || (full && code == FAMSYNC_NOSPACE));
    append_number(code == FAMSYNC_OK ? 'A' : 'F', number);
    return code == FAMSYNC_OK;
}

static void copy_model(struct model *to, const struct model *from)
{
    for (unsigned file = 0; file < from->count; file++) {
        to->length[file] = from->length[file];
        memcpy(to->bytes[file], from->bytes[file], from->capacity[file]);
    }
}

/* After a commit that found the disk full: makes it again, or undoes its changes, or lets them wait. Those of plain
   memory can't wait, since it is closed. */
static void after_refusal(famsync *handle, struct model *model, struct model *committed, uint64_t number, bool mapped)
{
    uint64_t choice = below(3);
    if (choice == 0) {
        WANT_CODE(famsync_rollback(handle), FAMSYNC_OK);
        copy_model(model, committed);
    } else if (choice == 1 || mapped) {
        WANT(commit(handle, model, number, false));
        copy_model(committed, model);
    }
}

/* Changes a file, and commits; every fourth time the disk is full. */
static void one_round(famsync *handle, struct model *model, struct model *committed, uint64_t number, uint64_t most)
{
    unsigned file = (unsigned)below(model->count);
    famsync_memory *memory = model->length[file] && below(2) ? memory_of(handle, file) : NULL;
    if (model->length[file])
        store_to_file(handle, model, file, memory, most);
    if (commit(handle, model, number, below(4) == 0))
        copy_model(committed, model);
    else
        after_refusal(handle, model, committed, number, memory != NULL);
    if (memory)
        WANT_CODE(famsync_memory_close(memory), FAMSYNC_OK);
}

static void work(uint64_t commits, uint64_t most, const uint64_t *capacities)
{
    struct famsync_options options = {.foreground = (int)below(2)};
    famsync *handle = opened_with(options);
    struct model model = {.count = famsync_files(handle)}, committed = model;
    for (unsigned file = 0; file < model.count; file++) {
        begin_file(handle, &model, file, capacities[file]);
        begin_file(handle, &committed, file, capacities[file]);
    }
    WANT(commit(handle, &model, 0, false));
    for (uint64_t number = 1; number <= commits; number++) {
        if (below(3) == 0)
            set_length(handle, &model, (unsigned)below(model.count));
        one_round(handle, &model, &committed, number, most);
        if (below(8) == 0)
            usleep(15000); /* the library's thread writes out */
    }
    WANT_CODE(famsync_close(handle), FAMSYNC_OK);
}

static void find(const char *path)
{
    famsync *handle;
    uint64_t digest = 0xcbf29ce484222325u;
    int code = famsync_open(path, NULL, &handle);
    if (code != FAMSYNC_OK) {
        printf("refused %d\n", code);
        return;
    }
    for (unsigned file = 0; file < famsync_files(handle); file++) {
        uint64_t length = famsync_file_length(handle, file);
        famsync_memory *memory = length ? memory_of(handle, file) : NULL;
        digest = with_file(digest, length, memory ? famsync_memory_at(memory) : NULL);
        if (memory)
            WANT_CODE(famsync_memory_close(memory), FAMSYNC_OK);
    }
    WANT_CODE(famsync_close(handle), FAMSYNC_OK);
    printf("%016" PRIx64 "\n", digest);
}

int main(int count, char **words)
{
    if (count == 6 && strcmp(words[2], "make") == 0) {
        make_hole_of((unsigned)atoi(words[3]), (unsigned)atoi(words[4]), words[5]);
        char command[300];
        snprintf(command, sizeof command, "mv '%s' '%s'", volume, words[1]);
        return system(command) != 0;
    }
    if (count >= 6 && strcmp(words[2], "work") == 0) {
        uint64_t capacities[FILES_MOST] = {0};
        for (int i = 6; i < count && i < 6 + FILES_MOST; i++)
            capacities[i - 6] = strtoull(words[i], NULL, 10);
        state = strtoull(words[3], NULL, 10);
        snprintf(volume, sizeof volume, "%s", words[1]);
        work(strtoull(words[4], NULL, 10), strtoull(words[5], NULL, 10), capacities);
        return 0;
    }
    char line[300];
    while (fgets(line, sizeof line, stdin)) {
        line[strcspn(line, "\n")] = 0;
        find(line);
        fflush(stdout);
    }
    return 0;
}
