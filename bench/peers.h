/* Declarations that the files of bench/peers share. A way stores to some pages, and makes all these
   stores durable together. */
#ifndef PEERS_H
#define PEERS_H

#define _DEFAULT_SOURCE
#include <stdbool.h>
#include <stddef.h>

#define PAGE 4096

struct way {
    const char *name;
    const char *volume;             /* the volume to which the way stores; null if it has none */
    void (*begin)(void);            /* makes the files of the way, and opens them */
    void (*commit)(int number);     /* stores the number in each page, and commits these stores */
    void (*finish_write_out)(void); /* makes the writes after the acknowledgement, or waits for
                                       them; may be null */
    void (*end)(void);
};

/* The `count` pages of a commit. If `apart` isn't 0, all commits have the same pages: every
   `apart`-th page of the file. If `apart` is 0, each commit has other pages of a file of 64 MB:
   pages side by side, or pages `anywhere`. */
struct pages {
    int count, apart;
    bool anywhere;
};

extern struct pages pages;

/* The number of the page that is page `index` of commit `number`. */
size_t page_of(int index, int number);

/* The volumes have this layout. Their logs have room for a commit of `records` records. */
struct volumes {
    unsigned layout, records;
};

extern struct volumes volumes;

void must(bool holds, const char *what);

/* Makes a volume with one file, `a`, which contains the pages of all commits. */
void make_volume_file(const char *path);
size_t bytes_of_file(void);
/* Makes the same volume, but as a hole: it writes only the blocks that aren't zeros. */
void make_hole(const char *path);

/* Waits until all commits of a volume are written home. Then its log has no commit. counted.c
   doesn't count the calls of this function. */
void wait_until_home(const char *path);

/* The ways of ways.c, by_hand.c and tracked.c. Each list ends with a way without a name. */
extern const struct way ways[], ways_by_hand[], ways_tracked[];

#endif
