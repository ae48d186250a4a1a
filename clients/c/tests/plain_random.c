/* Sessions of random calls on plain memory, beside a model of what the files have: in each layout, read in or mapped,
   with each budget of committed pages. Whatever was called, the memory has the bytes of the model.

   usage: plain_random [SEEDS [FIRST]]     how many sessions there are, and the number of the first */
#include "test.h"

#define MOST 60000u
#define FILES 2u

struct file {
    unsigned char bytes[MOST];
    uint64_t length;
};

static struct file now[FILES], committed[FILES];
static unsigned layout, seed, commits;
static bool has_tracking; /* the system can track stores */
static struct famsync_options options;
static famsync *handle;
static famsync_memory *memory[FILES];

static unsigned below(unsigned most)
{
    return (unsigned)rand() % most;
}

static void check(bool holds, const char *what)
{
    if (!holds) {
        fprintf(stderr, "plain_random: seed %u, after %u commits: %s\n", seed, commits, what);
        exit(1);
    }
}

/* A file has memory most of the time; an empty one has none when it is opened. */
static void open_memory(unsigned file)
{
    int code = famsync_memory_open(handle, file == 0 ? "a" : "b", &memory[file]);
    check(code == (now[file].length > 0 ? FAMSYNC_OK : FAMSYNC_ARGUMENT), "memory isn't opened");
}

static void judge(void)
{
    unsigned char found[MOST];
    for (unsigned file = 0; file < FILES; file++) {
        check(famsync_file_length(handle, file) == now[file].length, "another length");
        if (memory[file]) {
            check(famsync_memory_length(memory[file]) == now[file].length, "another length of memory");
            check(memcmp(famsync_memory_at(memory[file]), now[file].bytes, now[file].length) == 0, "other bytes");
        } else {
            WANT_CODE(famsync_read(handle, file, 0, found, now[file].length, NULL), FAMSYNC_OK);
            check(memcmp(found, now[file].bytes, now[file].length) == 0, "a read has other bytes");
        }
    }
}

static void begin(void)
{
    handle = opened_with(options);
    memcpy(now, committed, sizeof now);
    for (unsigned file = 0; file < FILES; file++)
        if (below(4))
            open_memory(file);
}

static void end(void)
{
    for (unsigned file = 0; file < FILES; file++) {
        WANT_CODE(famsync_memory_close(memory[file]), FAMSYNC_OK);
        memory[file] = NULL;
    }
    WANT_CODE(famsync_close(handle), FAMSYNC_OK);
}

/* Stores through the pointer or by a call; some bytes, or pages. */
static void store(unsigned file)
{
    unsigned from = below((unsigned)now[file].length + 1), count = below(below(3) ? 100 : 12000);
    unsigned char bytes[12000];
    size_t done;
    if (count > now[file].length - from)
        count = (unsigned)now[file].length - from;
    memset(bytes, (int)below(256), count);
    if (memory[file] && below(3)) {
        memcpy((unsigned char *)famsync_memory_at(memory[file]) + from, bytes, count);
        done = count;
    } else {
        int code = famsync_write(handle, file, from, bytes, count, &done);
        check(code == FAMSYNC_OK ? done == count : code == FAMSYNC_NOFRAME && done == 0, "a write is refused");
    }
    memcpy(now[file].bytes + from, bytes, done);
}

static void set_length(unsigned file)
{
    uint64_t length = below(3) ? below(MOST + 1) : now[file].length / 4096 * 4096 + 4096 * below(2);
    int code;
    if (length > MOST)
        length = MOST;
    code = famsync_setlength(handle, file == 0 ? "a" : "b", length);
    check(code == FAMSYNC_OK || (code == FAMSYNC_NOFRAME && length > now[file].length), "a length isn't set");
    if (code != FAMSYNC_OK)
        return;
    if (length > now[file].length)
        memset(now[file].bytes + now[file].length, 0, length - now[file].length);
    now[file].length = length;
}

/* Bytes past the end, in its last page, aren't kept. */
static void store_past_end(unsigned file)
{
    if (memory[file] && now[file].length % 4096 != 0)
        memset((unsigned char *)famsync_memory_at(memory[file]) + now[file].length, 9, 4096 - now[file].length % 4096);
}

/* What wasn't committed goes with the memory. */
static void open_again(unsigned file)
{
    int code = famsync_msync(handle, NULL);
    if (code == FAMSYNC_NOFRAME) {
        end();
        begin();
        return;
    }
    check(code == FAMSYNC_OK, "a commit is refused");
    memcpy(committed, now, sizeof now);
    commits++;
    if (memory[file] && below(3) == 0) {
        WANT_CODE(famsync_memory_close(memory[file]), FAMSYNC_OK);
        memory[file] = NULL;
    } else if (!memory[file] && below(2)) {
        open_memory(file);
    }
}

/* Memory is opened while writes of the file and its length wait for a commit. */
static void open_beside_writes(unsigned file)
{
    if (memory[file])
        return;
    store(file);
    open_memory(file);
}

static void roll_back(void)
{
    check(famsync_rollback(handle) == FAMSYNC_OK, "a rollback is refused");
    memcpy(now, committed, sizeof now);
}

static void make_call(unsigned file)
{
    unsigned which = below(20);
    if (which < 9)
        store(file);
    else if (which < 12)
        set_length(file);
    else if (which < 13)
        store_past_end(file);
    else if (which < 14)
        open_beside_writes(file);
    else if (which < 16)
        roll_back();
    else
        open_again(file);
}

static void session(void)
{
    unsigned slots = below(3) ? 20 + below(12) : 60;
    layout = FIRST_LAYOUT + seed % (LAYOUTS - FIRST_LAYOUT + 1);
    options = (struct famsync_options){.size = sizeof options, .foreground = (int)below(2), .resident = below(4) == 0};
    if (!options.resident && has_tracking && below(3) == 0)
        options.tracking = FAMSYNC_TRACK_KERNEL;
    options.budget = below(3) == 0 ? 0 : below(2) ? 1 : 40000;
    make_volume_of(layout, slots, "a=5000/60000 b=30000/60000");
    memset(committed, 0, sizeof committed);
    committed[0].length = 5000;
    committed[1].length = 30000;
    begin();
    for (unsigned calls = 80 + below(80); calls > 0; calls--) {
        make_call(below(FILES));
        judge();
        if (below(50) == 0) {
            end();
            begin();
            judge();
        }
    }
    end();
}

/* Whether the kernel tracks stores where it is asked to. */
static bool tracks(void)
{
    famsync *tried;
    make_volume(16, "a=4096");
    int code = famsync_open(volume, &(struct famsync_options){.size = sizeof options, .tracking = FAMSYNC_TRACK_KERNEL},
                            &tried);
    check(code == FAMSYNC_OK || code == FAMSYNC_TRACKING, "the system's tracking isn't opened");
    return code == FAMSYNC_OK && famsync_close(tried) == FAMSYNC_OK;
}

int main(int count, char **words)
{
    unsigned sessions = count > 1 ? (unsigned)atoi(words[1]) : 48, first = count > 2 ? (unsigned)atoi(words[2]) : 1;
    has_tracking = tracks();
    for (seed = first; seed < first + sessions; seed++) {
        srand(seed);
        session();
    }
    printf("clients/c: plain_random: %u commits in %u sessions, as it should be\n", commits, sessions);
    return 0;
}
