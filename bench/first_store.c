// What a first store to a page of plain memory takes while another thread commits: see bench/first_stores.
//
//   first_store VOLUME STORES PAGES   the volume has a file `a` of 1,024 pages; prints each time in nanoseconds
#define _GNU_SOURCE
#include "famsync.h"

#include <stdatomic.h>
#include <pthread.h>
#include <stdbool.h>
#include <stdio.h>
#include <stdlib.h>
#include <string.h>
#include <time.h>

enum { PAGE = 4096, FILE_PAGES = 1024 };

static famsync *handle;
static unsigned char *at;
static unsigned pages;
static atomic_bool stopped;
static atomic_uint commits;

static void must(int code, const char *what) {
    if (code == FAMSYNC_OK) return;
    fprintf(stderr, "%s: %s\n", what, famsync_strerror(code));
    exit(1);
}

static long now(void) {
    struct timespec t;
    clock_gettime(CLOCK_MONOTONIC, &t);
    return t.tv_sec * 1000000000 + t.tv_nsec;
}

// Stores to pages of its own, the upper half of the file's, and commits, again and again.
static void *commit(void *argument) {
    (void)argument;
    for (unsigned round = 1; !atomic_load(&stopped); round++) {
        for (unsigned i = 0; i < pages; i++) at[(FILE_PAGES - 1 - 2 * i) * (size_t)PAGE] = (unsigned char)round;
        must(famsync_msync(handle, NULL), "famsync_msync");
        atomic_fetch_add(&commits, 1);
    }
    return NULL;
}

// One store to a page that is closed, at any moment of the commits.
static long store(unsigned number) {
    volatile unsigned char *page = at + (number * 2654435761u) % (FILE_PAGES / 2) * (size_t)PAGE;
    long begin = now();
    *page = (unsigned char)number;
    return now() - begin;
}

int main(int count, char **words) {
    pthread_t thread;
    famsync_memory *memory;
    if (count != 4) return 2;
    unsigned stores = (unsigned)atoi(words[2]);
    long *time = calloc(stores, sizeof *time);
    pages = (unsigned)atoi(words[3]);
    must(famsync_open(words[1], NULL, &handle), "famsync_open");
    must(famsync_memory_open(handle, "a", &memory), "famsync_memory_open");
    at = famsync_memory_at(memory);
    pthread_create(&thread, NULL, commit, NULL);
    for (unsigned i = 0; i < stores; i++) {
        unsigned before = atomic_load(&commits);
        time[i] = store(i);
        while (i % 16 == 15 && atomic_load(&commits) == before) continue; // so that pages are closed again
    }
    atomic_store(&stopped, true);
    pthread_join(thread, NULL);
    for (unsigned i = 0; i < stores; i++) printf("%ld\n", time[i]);
    must(famsync_memory_close(memory), "famsync_memory_close");
    must(famsync_close(handle), "famsync_close");
    return 0;
}
