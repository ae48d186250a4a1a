// What `bench/run` compares famsync with.
//
//   bench DISK SLOTS PAGES COMMITS PAUSE   makes the reads, writes and syncs of that many commits of that many pages on
//                                          a volume of layout 1, with nothing around them, and prints `marked` before
//                                          each and `done` after it; before that it stores a byte in each page, and
//                                          keeps its processor at work for PAUSE microseconds
#define _GNU_SOURCE
#include <fcntl.h>
#include <stdint.h>
#include <stdio.h>
#include <stdlib.h>
#include <string.h>
#include <time.h>
#include <unistd.h>

enum { BLOCK = 4096 };

static void fail(const char *what) {
    perror(what);
    exit(1);
}

static void put(int disk, const void *bytes, size_t count, off_t at) {
    if (pwrite(disk, bytes, count, at) != (ssize_t)count) fail("pwrite");
}

static void sync_all(int disk) {
    if (fsync(disk) != 0) fail("fsync");
}

static void print(const char *line) {
    if (write(STDOUT_FILENO, line, strlen(line)) < 0) fail("write");
}

static void big_endian(unsigned char *to, uint64_t number, int bytes) {
    for (int i = bytes - 1; i >= 0; i--, number >>= 8) to[i] = number & 0xff;
}

// The pages of the file.
static unsigned char memory[1020][BLOCK];

static double now(void) {
    struct timespec t;
    clock_gettime(CLOCK_MONOTONIC, &t);
    return t.tv_sec * 1e6 + t.tv_nsec / 1e3;
}

// One commit of these pages: the records, the descriptor, the gate opened; the records applied, the gate closed.
static void commit(int disk, int slots, int pages, uint64_t mark) {
    static unsigned char record[BLOCK], descriptor[BLOCK];
    const unsigned char open_gate = 0xa7, closed_gate = 0;
    off_t first_home = (off_t)BLOCK * (3 + slots);
    for (int i = 0; i < pages; i++) put(disk, memory[i], BLOCK, (off_t)BLOCK * (3 + i));
    memset(descriptor, 0, BLOCK);
    big_endian(descriptor, mark, 8);
    big_endian(descriptor + 8, pages, 4);
    for (int i = 0; i < pages; i++) big_endian(descriptor + 16 + 4 * i, 3 + slots + i, 4);
    put(disk, descriptor, BLOCK, 2 * BLOCK);
    sync_all(disk);
    put(disk, &open_gate, 1, BLOCK);
    sync_all(disk);
    for (int i = 0; i < pages; i++) {
        if (pread(disk, record, BLOCK, (off_t)BLOCK * (3 + i)) != BLOCK) fail("pread");
        put(disk, record, BLOCK, first_home + (off_t)BLOCK * i);
    }
    sync_all(disk);
    put(disk, &closed_gate, 1, BLOCK);
    sync_all(disk);
}

int main(int count, char **words) {
    if (count != 6) {
        fputs("bench DISK SLOTS PAGES COMMITS PAUSE\n", stderr);
        return 2;
    }
    int disk = open(words[1], O_RDWR);
    if (disk < 0) fail(words[1]);
    int slots = atoi(words[2]), pages = atoi(words[3]), commits = atoi(words[4]);
    double pause = atof(words[5]);
    for (int mark = 1; mark <= commits; mark++) {
        for (double since = now(); now() - since < pause;) {}
        for (int i = 0; i < pages; i++) memory[i][0] = (unsigned char)mark;
        print("marked\n");
        commit(disk, slots, pages, mark);
        print("done\n");
    }
    return 0;
}
