/*
 * The log of a volume of layout 5 or 6 (docs/FORMATS.md), by hand and for one file. A commit is one write and one sync
 * where a digest seals it; where a byte seals it, there are a second write, of the seal, and a second sync. Writing
 * home shares these syncs.
 */
#include "peers.h"

#include "log_by_hand.h"

#include <fcntl.h>
#include <stdint.h>
#include <stdlib.h>
#include <string.h>
#include <unistd.h>

#define OPEN 0xa7
#define SELECTOR 1
#define STARTS 2
#define LOG 4
#define HEAD 32 /* the bytes of a descriptor before the home blocks */

/* How far a move of the log's start has come: the other start is written; a sync has followed; it is selected. The next
   sync ends the move. */
enum move { RESTING, WRITTEN, SURE, SELECTED };

struct ring {
    int file;
    uint32_t blocks;     /* of the ring */
    uint64_t key, epoch; /* the digest's seed is one XOR the other */
    uint64_t number;     /* of the next commit */
    uint32_t end, used;  /* its position, and how many blocks lie between the start and there */
    unsigned selected;   /* the start that counts */
    enum move move;      /* of the start to a later commit */
    uint32_t moved_over; /* the blocks that this frees */
    unsigned char *room; /* the descriptor and records of a commit */
    bool *is_changed;    /* for each page, whether its newest bytes aren't at home */
};

static struct ring rings[LOGS_BY_HAND], *ring = rings;

static void put_number(unsigned char *bytes, unsigned count, uint64_t number)
{
    for (unsigned i = count; i > 0; i--, number >>= 8)
        bytes[i - 1] = (unsigned char)number;
}

static uint64_t number_at(const unsigned char *bytes, unsigned count)
{
    uint64_t number = 0;
    for (unsigned i = 0; i < count; i++)
        number = number << 8 | bytes[i];
    return number;
}

static void read_at(unsigned char *bytes, size_t length, off_t offset)
{
    must(pread(ring->file, bytes, length, offset) == (ssize_t)length, "pread");
}

static void write_at(const unsigned char *bytes, size_t length, off_t offset)
{
    must(pwrite(ring->file, bytes, length, offset) == (ssize_t)length, "pwrite");
}

/* Makes durable what was written, and also a step of a move. */
static void sync_file(void)
{
    must(fdatasync(ring->file) == 0, "fdatasync");
    if (ring->move == WRITTEN) {
        ring->move = SURE;
    } else if (ring->move == SELECTED) {
        ring->selected = 1 - ring->selected;
        ring->used -= ring->moved_over;
        ring->move = RESTING;
    }
}

/* ---- XXH64 */

static const uint64_t P1 = 0x9e3779b185ebca87, P2 = 0xc2b2ae3d27d4eb4f, P3 = 0x165667b19e3779f9,
                      P4 = 0x85ebca77c2b2ae63, P5 = 0x27d4eb2f165667c5;

static uint64_t rotated(uint64_t word, unsigned bits)
{
    return word << bits | word >> (64 - bits);
}

static uint64_t little(const unsigned char *bytes, unsigned count)
{
    uint64_t word = 0;
    memcpy(&word, bytes, count);
    return word;
}

static uint64_t mixed(uint64_t lane, uint64_t word)
{
    return rotated(lane + word * P2, 31) * P1;
}

static uint64_t digest_of(const unsigned char *bytes, size_t length, uint64_t seed)
{
    uint64_t lane[4] = {seed + P1 + P2, seed + P2, seed, seed - P1}, sum = seed + P5;
    size_t left = length;
    for (; left >= 32; left -= 32, bytes += 32)
        for (int i = 0; i < 4; i++)
            lane[i] = mixed(lane[i], little(bytes + 8 * i, 8));
    if (length >= 32) {
        sum = rotated(lane[0], 1) + rotated(lane[1], 7) + rotated(lane[2], 12) + rotated(lane[3], 18);
        for (int i = 0; i < 4; i++)
            sum = (sum ^ mixed(0, lane[i])) * P1 + P4;
    }
    sum += length;
    for (; left >= 8; left -= 8, bytes += 8)
        sum = rotated(sum ^ mixed(0, little(bytes, 8)), 27) * P1 + P4;
    for (; left >= 4; left -= 4, bytes += 4)
        sum = rotated(sum ^ little(bytes, 4) * P1, 23) * P2 + P3;
    for (; left > 0; left--, bytes++)
        sum = rotated(sum ^ *bytes * P5, 11) * P1;
    sum = (sum ^ sum >> 33) * P2;
    sum = (sum ^ sum >> 29) * P3;
    return sum ^ sum >> 32;
}

/* ---- the volume */

void choose_log(unsigned which)
{
    ring = &rings[which];
}

static bool has_digest(void)
{
    return volumes.layout == 6;
}

static size_t pages_of_file(void)
{
    return bytes_of_file() / PAGE;
}

void open_log(const char *path)
{
    unsigned char super[PAGE], start[PAGE], selector;
    memset(ring, 0, sizeof *ring);
    ring->file = open(path, O_RDWR);
    must(ring->file >= 0, path);
    read_at(super, PAGE, 0);
    read_at(&selector, 1, (off_t)SELECTOR * PAGE);
    ring->selected = selector == OPEN;
    read_at(start, PAGE, (off_t)(STARTS + ring->selected) * PAGE);
    ring->blocks = (uint32_t)number_at(super + 12, 4);
    ring->key = number_at(super + 24, 8);
    ring->number = number_at(start, 8);
    ring->epoch = number_at(start + 8, 8);
    ring->end = (uint32_t)number_at(start + 16, 4);
    ring->room = calloc(pages_of_file() + 1 + (HEAD + 4 * pages_of_file()) / PAGE + 1, PAGE);
    ring->is_changed = calloc(pages_of_file(), sizeof *ring->is_changed);
    must(ring->room && ring->is_changed, "no memory");
}

void close_log(void)
{
    free(ring->room);
    free(ring->is_changed);
    must(close(ring->file) == 0, "close");
}

/* ---- writing home */

static void write_changed(const unsigned char *kept)
{
    size_t pages = pages_of_file(), home = LOG + ring->blocks + 1;
    for (size_t page = 0, end; page < pages; page = end + 1) {
        for (end = page; end < pages && ring->is_changed[end]; end++)
            ring->is_changed[end] = false;
        if (end > page)
            write_at(kept + page * PAGE, (end - page) * PAGE, (off_t)((home + page) * PAGE));
    }
}

static void write_start(void)
{
    unsigned char start[PAGE] = {0};
    put_number(start, 8, ring->number);
    put_number(start + 8, 8, ring->epoch);
    put_number(start + 16, 4, ring->end);
    write_at(start, PAGE, (off_t)(STARTS + 1 - ring->selected) * PAGE);
    ring->moved_over = ring->used;
    ring->move = WRITTEN;
}

void write_commits_home(const unsigned char *kept)
{
    if (ring->move == RESTING && 2 * ring->used >= ring->blocks) {
        write_changed(kept);
        write_start();
    }
}

static void select_start(void)
{
    unsigned char selector = ring->selected == 0 ? OPEN : 0;
    if (ring->move == SURE) {
        write_at(&selector, 1, (off_t)SELECTOR * PAGE);
        ring->move = SELECTED;
    }
}

/* Ends the move that is under way, and makes another one. */
void empty_log(const unsigned char *kept)
{
    for (int moves = 0; moves < 2; moves++) {
        if (ring->move == RESTING) {
            write_changed(kept);
            write_start();
        }
        for (; ring->move != RESTING; sync_file())
            select_start();
    }
}

/* ---- commits */

/* Writes bytes to the ring, `skipped` bytes behind the beginning of the next commit. */
static void write_ring(const unsigned char *bytes, size_t length, size_t skipped)
{
    size_t size = (size_t)ring->blocks * PAGE, at = ((size_t)ring->end * PAGE + skipped) % size;
    size_t first = length < size - at ? length : size - at;
    write_at(bytes, first, (off_t)(at + (size_t)LOG * PAGE));
    if (first < length)
        write_at(bytes + first, length - first, (off_t)LOG * PAGE);
}

/* Lays out the descriptor and the records; returns the number of blocks. */
static uint32_t lay_out_commit(const int *page, int count, const unsigned char *kept)
{
    uint32_t blocks = (HEAD + 4 * (uint32_t)count + PAGE - 1) / PAGE;
    memset(ring->room, 0, (size_t)blocks * PAGE);
    put_number(ring->room + 8, 8, ring->number);
    put_number(ring->room + 16, 4, (uint64_t)count);
    for (int i = 0; i < count; i++) {
        put_number(ring->room + HEAD + 4 * i, 4, LOG + ring->blocks + 1 + (uint64_t)page[i]);
        memcpy(ring->room + (size_t)blocks++ * PAGE, kept + (size_t)page[i] * PAGE, PAGE);
        ring->is_changed[page[i]] = true;
    }
    return blocks;
}

/* The first write ends with the byte that closes the next commit's seal. */
static void write_with_byte(size_t length)
{
    ring->room[length] = 0;
    write_ring(ring->room + 1, length, 1);
    sync_file();
    select_start();
    ring->room[0] = OPEN;
    write_ring(ring->room, 1, 0);
    sync_file();
}

static void write_with_digest(size_t length)
{
    put_number(ring->room, 8, digest_of(ring->room + 8, length - 8, ring->key ^ ring->epoch));
    select_start();
    write_ring(ring->room, length, 0);
    sync_file();
}

void append_to_log(const int *page, int count, const unsigned char *kept)
{
    uint32_t blocks = lay_out_commit(page, count, kept);
    must(ring->used + blocks + 1 <= ring->blocks, "the log is too small for this row");
    if (has_digest())
        write_with_digest((size_t)blocks * PAGE);
    else
        write_with_byte((size_t)blocks * PAGE);
    ring->number++;
    ring->end = (ring->end + blocks) % ring->blocks;
    ring->used += blocks;
}
