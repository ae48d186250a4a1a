// A library to load before a program (LD_PRELOAD), which takes the time between lines that the program prints: from
// each line that begins with the word of FIRST to the next that begins with that of LAST. As the program ends, it
// writes the microseconds of each such pair to the file TIMES: times are taken where the program is, and no reader's.
//
// With TURN, two such programs take turns, so that both meet the machine and its disk in the same moments. One is
// `first` and one is `second`; each has its turn up to the end of its next pair, and then waits for its next turn. They
// pass the turn by the pipes `there` and `back`. Where the other has ended, nobody waits.
#define _GNU_SOURCE
#include <dlfcn.h>
#include <fcntl.h>
#include <stdio.h>
#include <stdlib.h>
#include <string.h>
#include <time.h>
#include <unistd.h>

static const char *first, *last;
static clockid_t clock_taken;
static int to_other = -1, from_other = -1;
static double times[10000], start;
static size_t count;
static int inside;
static ssize_t (*real)(int, const void *, size_t);

static double now(void) {
    struct timespec t;
    clock_gettime(clock_taken, &t);
    return t.tv_sec * 1e6 + t.tv_nsec / 1e3;
}

static void wait_for_turn(void) {
    char turn;
    if (read(from_other, &turn, 1) < 0) abort();
}

static void pass_turn(void) {
    if (real(to_other, "", 1) != 1) abort();
}

__attribute__((constructor)) static void begin(void) {
    *(void **)&real = dlsym(RTLD_NEXT, "write");
    first = getenv("FIRST");
    last = getenv("LAST");
    // The time, or with PROCESSOR_TIME that for which the processor was at work for this program.
    clock_taken = getenv("PROCESSOR_TIME") ? CLOCK_PROCESS_CPUTIME_ID : CLOCK_MONOTONIC;
    const char *turn = getenv("TURN");
    if (!turn) return;
    // A pipe is open once both ends are, so both programs have to open them in the same order.
    if (strcmp(turn, "first") == 0) {
        to_other = open("there", O_WRONLY);
        from_other = open("back", O_RDONLY);
    } else {
        from_other = open("there", O_RDONLY);
        to_other = open("back", O_WRONLY);
        wait_for_turn();
    }
}

// Whether the last of these lines begins with a word. A program that flushes such a line writes it last, and the many
// lines before it needn't be looked at, which would take time that is counted.
static int ends_with_line(const char *text, size_t size, const char *word) {
    if (size == 0) return 0;
    const char *before = memrchr(text, '\n', size - 1);
    const char *line = before ? before + 1 : text;
    size_t length = strlen(word);
    return (size_t)(text + size - line) >= length && memcmp(line, word, length) == 0;
}

ssize_t write(int file, const void *bytes, size_t size) {
    int ends = file == STDOUT_FILENO && inside && ends_with_line(bytes, size, last);
    if (ends) {
        if (count < sizeof times / sizeof *times) times[count++] = now() - start;
        inside = 0;
    }
    ssize_t written = real(file, bytes, size);
    if (ends && to_other >= 0) {
        pass_turn();
        wait_for_turn();
    }
    if (file == STDOUT_FILENO && !inside && ends_with_line(bytes, size, first)) {
        inside = 1;
        start = now();
    }
    return written;
}

__attribute__((destructor)) static void report(void) {
    FILE *out = fopen(getenv("TIMES"), "w");
    if (!out) return;
    for (size_t i = 0; i < count; i++) fprintf(out, "%.1f\n", times[i]);
    fclose(out);
}
