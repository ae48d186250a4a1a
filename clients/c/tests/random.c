/* Sessions of random calls, beside a model of what the files have: in each layout, with few frames and many, reads and
   writes of one file, whose length is set where that can be, and plain memory of another, also by reads and writes.
   Whatever was called, a copy of the volume opens with the files as they were committed last.

   usage: random [SEEDS [FIRST]]     how many sessions there are, and the number of the first */
#include "test.h"

#define A_MOST 40000u
#define B_LENGTH 30000u

/* What the files have: `a` of a length that may change, and `b`. */
struct files {
    unsigned char a[A_MOST], b[B_LENGTH];
    uint64_t length;
};

static struct files now, committed;
static unsigned layout, seed, commits;
static struct famsync_options options;
static famsync *handle;
static famsync_memory *memory;
static unsigned char *b;
static char copied[100];

static unsigned below(unsigned most)
{
    return (unsigned)rand() % most;
}

static void check(bool holds, const char *what)
{
    if (!holds) {
        fprintf(stderr, "random: seed %u, after %u commits: %s\n", seed, commits, what);
        exit(1);
    }
}

static void begin(void)
{
    handle = opened_with(options);
    WANT_CODE(famsync_memory_open(handle, "b", &memory), FAMSYNC_OK);
    b = famsync_memory_at(memory);
    now = committed;
    check(famsync_file_length(handle, 0) == now.length, "the length isn't the one that was committed");
    check(memcmp(b, now.b, B_LENGTH) == 0, "plain memory isn't what was committed");
}

static void end(void)
{
    WANT_CODE(famsync_memory_close(memory), FAMSYNC_OK);
    WANT_CODE(famsync_close(handle), FAMSYNC_OK);
}

static void load(void)
{
    unsigned char found[A_MOST];
    uint64_t from = below(A_MOST), count = below(9000), left = from < now.length ? now.length - from : 0;
    size_t done;
    WANT_CODE(famsync_read(handle, 0, from, found, count, &done), FAMSYNC_OK);
    check(done == (count < left ? count : left), "a read comes to another end");
    check(memcmp(found, now.a + from, done) == 0, "a read has other bytes");
}

static void store(void)
{
    unsigned char bytes[9000];
    uint64_t from = below((unsigned)now.length + 1), count = below(sizeof bytes);
    size_t done;
    if (count > now.length - from && below(5) > 0)
        count = now.length - from;
    memset(bytes, (int)below(256), sizeof bytes);
    int code = famsync_write(handle, 0, from, bytes, count, &done);
    if (count > now.length - from)
        check(code == FAMSYNC_EINVAL && done == 0, "a write past the end isn't refused");
    else
        check(code == FAMSYNC_NOFRAME ? done == 0 : code == FAMSYNC_OK && done == count,
              "a write comes to another end");
    memcpy(now.a + from, bytes, done);
}

/* The same of the other file, whose plain memory is open. */
static void read_memory(void)
{
    unsigned char found[9000];
    unsigned from = below(B_LENGTH), count = below(sizeof found);
    size_t done;
    WANT_CODE(famsync_read(handle, 1, from, found, count, &done), FAMSYNC_OK);
    check(done == (count < B_LENGTH - from ? count : B_LENGTH - from), "a read of plain memory comes to another end");
    check(memcmp(found, now.b + from, done) == 0, "a read of plain memory has other bytes");
}

static void write_memory(void)
{
    unsigned char bytes[9000];
    unsigned from = below(B_LENGTH), count = below(below(4) ? 100 : sizeof bytes);
    size_t done;
    memset(bytes, (int)below(256), sizeof bytes);
    int code = famsync_write(handle, 1, from, bytes, count, &done);
    if (count > B_LENGTH - from)
        check(code == FAMSYNC_EINVAL && done == 0, "a write past the end of plain memory isn't refused");
    else
        check(code == FAMSYNC_NOFRAME ? done == 0 && famsync_frames(handle) < 4 : code == FAMSYNC_OK && done == count,
              "a write of plain memory comes to another end");
    memcpy(now.b + from, bytes, done);
}

static void store_to_memory(void)
{
    unsigned from = below(B_LENGTH), count = below(below(4) ? 100 : 9000);
    if (count > B_LENGTH - from)
        count = B_LENGTH - from;
    memset(now.b + from, (int)below(256), count);
    memcpy(b + from, now.b + from, count);
}

static void set_length(void)
{
    uint64_t length = below(A_MOST + 2000);
    int code = famsync_setlength(handle, "a", length);
    if (length > A_MOST) {
        check(code == FAMSYNC_EINVAL, "a length is set that can't be");
        return;
    }
    check(code == FAMSYNC_OK || (code == FAMSYNC_NOFRAME && length > now.length), "a length isn't set");
    if (code != FAMSYNC_OK)
        return;
    if (length > now.length)
        memset(now.a + now.length, 0, length - now.length);
    now.length = length;
}

/* More pages than a commit has can't be committed by a later call either: then the session ends. */
static void commit(void)
{
    int code = famsync_msync(handle, NULL);
    if (code == FAMSYNC_NOFRAME) {
        end();
        begin();
        return;
    }
    check(code == FAMSYNC_OK, "a commit is refused");
    committed = now;
    commits++;
}

/* What a kill would leave now, where nobody writes meanwhile. */
static void look_at_a_copy(void)
{
    char command[250];
    unsigned char found[A_MOST];
    famsync *other;
    if (!options.foreground)
        return;
    snprintf(command, sizeof command, "cp '%s' '%s'", volume, copied);
    WANT(system(command) == 0);
    WANT_CODE(famsync_open(copied, NULL, &other), FAMSYNC_OK);
    check(famsync_file_length(other, 0) == committed.length, "a copy has another length");
    WANT_CODE(famsync_read(other, 0, 0, found, committed.length, NULL), FAMSYNC_OK);
    check(memcmp(found, committed.a, committed.length) == 0, "a copy has other bytes");
    WANT_CODE(famsync_read(other, 1, 0, found, B_LENGTH, NULL), FAMSYNC_OK);
    check(memcmp(found, committed.b, B_LENGTH) == 0, "a copy has other bytes of plain memory");
    WANT_CODE(famsync_close(other), FAMSYNC_OK);
}

static void session(void)
{
    unsigned slots = below(3) ? 2 + below(12) : 40;
    layout = FIRST_LAYOUT + seed % (LAYOUTS - FIRST_LAYOUT + 1);
    options = (struct famsync_options){.foreground = (int)below(2), .frames = below(2) ? 0 : 1 + below(slots - 1)};
    make_volume_of(layout, slots, "a=5000/40000 b=30000");
    memset(&committed, 0, sizeof committed);
    committed.length = 5000;
    begin();
    for (unsigned calls = 60 + below(60); calls > 0; calls--) {
        static void (*const call[])(void) = {
            load, store, store, read_memory, write_memory, store_to_memory, set_length, store_to_memory, load};
        unsigned which = below(40);
        if (which < 2) {
            end();
            begin();
        } else if (which < 4) {
            look_at_a_copy();
        } else if (which < 14) {
            commit();
        } else {
            call[which % 9]();
        }
    }
    look_at_a_copy();
    end();
}

int main(int count, char **words)
{
    unsigned sessions = count > 1 ? (unsigned)atoi(words[1]) : 32, first = count > 2 ? (unsigned)atoi(words[2]) : 1;
    make_folder();
    snprintf(copied, sizeof copied, "%s/copy.img", folder);
    for (seed = first; seed < first + sessions; seed++) {
        srand(seed);
        session();
    }
    printf("clients/c: random: %u commits in %u sessions, as it should be\n", commits, sessions);
    return 0;
}
