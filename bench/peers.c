/*
 * Commits of several ways to make pages durable, for bench/peers. Each commit stores to PAGES pages. Every APART-th of
 * a file is one of them; or with `aside` or `anywhere` in the place of APART, each commit has other pages of a file of
 * 64 MB, side by side or anywhere. Volumes are of a layout, and have room for a commit of so many records.
 *
 *   peers turns LAYOUT RECORDS PAGES APART TURNS WAY ..
 *           the ways take turns, a commit each, and what comes after its acknowledgement is waited for; prints for each
 *           the microseconds of its commit in the middle
 *   peers rows LAYOUT RECORDS PAGES APART TURNS COMMITS WAY ..
 *           the ways take turns, a row of commits each, of which each comes right after the one before; prints for each
 *           the microseconds of a commit of its row in the middle
 *   peers counted LAYOUT RECORDS PAGES APART COMMITS WAY
 *           prints writes, bytes, syncs, reads and protections of so many commits up to their acknowledgement, by the
 *           thread that commits; and the first three in all. With counted.c before it
 *   peers counted-row LAYOUT RECORDS PAGES APART COMMITS WAY
 *           prints the same of so many commits in a row; and the first three in all, of these, of the two before them,
 *           and of what is left after the last until the store is closed. With counted.c before it
 *
 * ways.c, by_hand.c and tracked.c have the ways. Stores are made in the folder from which it is called.
 */
#include "peers.h"

#include "counted.h"
#include "test.h"

#include <dlfcn.h>
#include <sys/syscall.h>
#include <time.h>

#define MOST_WAYS 16
/* How many commits come before those that are timed or counted. */
#define BEFORE 2
/* The pages of a file of 64 MB, a power of two. */
#define PAGES_OF_OTHERS 16384

struct pages pages;
struct volumes volumes;

void must(bool holds, const char *what)
{
    if (holds)
        return;
    fprintf(stderr, "peers: %s\n", what);
    exit(1);
}

static size_t pages_of_file(void)
{
    size_t least = pages.apart > 0 ? 0 : PAGES_OF_OTHERS, count = (size_t)pages.count;
    count *= pages.apart > 0 ? (size_t)pages.apart : 1;
    return count > least ? count : least;
}

size_t bytes_of_file(void)
{
    return pages_of_file() * PAGE;
}

/* An odd number times the pages that were stored to before meets each page of the file once. */
size_t page_of(int index, int number)
{
    size_t before = (size_t)number * (size_t)pages.count + (size_t)index;
    if (pages.apart > 0)
        return (size_t)index * (size_t)pages.apart;
    return before * (pages.anywhere ? 7919 : 1) % pages_of_file();
}

void make_volume_file(const char *path)
{
    char files[40];
    strcpy(folder, ".");
    snprintf(volume, sizeof volume, "%s", path);
    snprintf(files, sizeof files, "a=%zu", bytes_of_file());
    make_volume_of(volumes.layout, volumes.records, files);
}

void make_hole(const char *path)
{
    unsigned char super[PAGE] = {0}, lengths[PAGE] = {0};
    char files[40];
    uint32_t lengths_at, blocks;
    snprintf(files, sizeof files, "a=%zu", bytes_of_file());
    blocks = lay_out(volumes.layout, volumes.records, files, super, lengths, &lengths_at);
    int file = open(path, O_RDWR | O_CREAT | O_TRUNC, 0666);
    must(file >= 0 && ftruncate(file, (off_t)blocks * PAGE) == 0, path);
    write_new(file, super, lengths, lengths_at);
    must(close(file) == 0, path);
}

void wait_until_home(const char *path)
{
    int file = open(path, O_RDONLY);
    must(file >= 0, path);
    while (commits_in_log(file) > 0)
        usleep(200);
    must(syscall(SYS_fdatasync, file) == 0 && close(file) == 0, "the sync behind the start");
}

static const struct way *way_of(const char *name)
{
    const struct way *const lists[] = {ways, ways_by_hand, ways_tracked};
    for (size_t i = 0; i < sizeof lists / sizeof *lists; i++)
        for (const struct way *way = lists[i]; way->name; way++)
            if (strcmp(way->name, name) == 0)
                return way;
    must(false, name);
    return NULL;
}

static double now(void)
{
    struct timespec time;
    clock_gettime(CLOCK_MONOTONIC, &time);
    return (double)time.tv_sec * 1e6 + (double)time.tv_nsec / 1e3;
}

static int compare(const void *left, const void *right)
{
    double one = *(const double *)left, other = *(const double *)right;
    return (one > other) - (one < other);
}

/* Makes commits with numbers from this one up, each right after the one before. */
static void make_commits(const struct way *way, int number, int commits)
{
    for (int i = 0; i < commits; i++)
        way->commit(number + i);
}

/* What such commits take, up to the acknowledgement of the last; then what is left of them is waited for. */
static double time_of(const struct way *way, int number, int commits)
{
    double began = now(), ended;
    make_commits(way, number, commits);
    ended = now();
    if (way->finish_write_out)
        way->finish_write_out();
    return ended - began;
}

/* A turn of a way: a commit; or a row, where each commit but the first ones also does what those before it left. */
static double turn_of(const struct way *way, int turn, int row)
{
    int number = 1 + turn * (BEFORE + row);
    if (row == 0)
        return time_of(way, 1 + turn, 1);
    make_commits(way, number, BEFORE);
    return time_of(way, number + BEFORE, row) / row;
}

/* The ways begin with another one each turn, so that none always comes behind the same one. In each row, or where there
   are none before all turns, come some commits of each that aren't counted. */
static void take_turns(int turns, int row, int count, char **names)
{
    int before = row == 0 ? BEFORE : 0;
    double *times = calloc((size_t)turns * (size_t)count, sizeof *times);
    const struct way *chosen[MOST_WAYS];
    must(times && turns > 0 && row >= 0 && count <= MOST_WAYS, "turns");
    for (int i = 0; i < count; i++) {
        chosen[i] = way_of(names[i]);
        chosen[i]->begin();
    }
    for (int turn = 0; turn < before + turns; turn++)
        for (int i = 0; i < count; i++) {
            int which = (i + turn) % count;
            double time = turn_of(chosen[which], turn, row);
            if (turn >= before)
                times[which * turns + turn - before] = time;
        }
    for (int i = 0; i < count; i++) {
        chosen[i]->end();
        qsort(times + i * turns, (size_t)turns, sizeof *times, compare);
        printf("%s %.0f\n", chosen[i]->name, times[i * turns + turns / 2]);
    }
    free(times);
}

static void (*ask)(long of_thread[COUNTS], long of_all[COUNTS]);

/* What was counted up to a moment, of this thread and of all. */
struct counts {
    long own[COUNTS], all[COUNTS];
};

static struct counts counts_now(void)
{
    struct counts counts;
    ask(counts.own, counts.all);
    return counts;
}

/* Adds what was counted between two moments. */
static void add(long sums[COUNTS], const long before[COUNTS], const long after[COUNTS])
{
    for (int i = 0; i < COUNTS; i++)
        sums[i] += after[i] - before[i];
}

static void print_counts(const long sums[COUNTS], const long whole[COUNTS])
{
    printf("%ld %ld %ld %ld %ld ", sums[WRITES], sums[BYTES], sums[SYNCS], sums[READS], sums[PROTECTIONS]);
    printf("%ld %ld %ld\n", whole[WRITES], whole[BYTES], whole[SYNCS]);
}

/* The last sync of a commit comes after the start behind it counts, where a way may end its wait: it is waited for. A
   commit of layout 6 has one less. */
static void wait_for_syncs(long before)
{
    long syncs = volumes.layout == 6 ? 3 : 4;
    for (int tries = 0; tries < 5000; tries++) {
        if (counts_now().all[SYNCS] - before >= syncs)
            return;
        usleep(1000);
    }
    must(false, "too few syncs");
}

/* Makes a commit, and adds to the counts of this thread up to its acknowledgement, and to those of all. */
static void count_commit(const struct way *way, int number, long sums[COUNTS], long whole[COUNTS])
{
    struct counts before = counts_now();
    way->commit(number);
    add(sums, before.own, counts_now().own);
    if (way->finish_write_out) {
        way->finish_write_out();
        wait_for_syncs(before.all[SYNCS]);
    }
    add(whole, before.all, counts_now().all);
}

static void begin_counting(const struct way *way)
{
    *(void **)&ask = dlsym(RTLD_DEFAULT, "counted_now");
    must(ask != NULL, "counted.c isn't before it");
    way->begin();
}

/* A way whose store is a volume has left the last number in each page. */
static void check_volume(const char *path, int number)
{
    famsync *handle;
    if (!path)
        return;
    WANT_CODE(famsync_open(path, NULL, &handle), FAMSYNC_OK);
    for (int i = 0; i < pages.count; i++) {
        int found;
        uint64_t at = page_of(i, number) * PAGE;
        WANT_CODE(famsync_read(handle, 0, at, &found, sizeof found, NULL), FAMSYNC_OK);
        WANT(found == number);
    }
    WANT_CODE(famsync_close(handle), FAMSYNC_OK);
}

static void count_commits(const struct way *way, int commits)
{
    long sums[COUNTS] = {0}, whole[COUNTS] = {0}, uncounted[COUNTS] = {0};
    begin_counting(way);
    for (int number = 1; number <= BEFORE; number++)
        count_commit(way, number, uncounted, uncounted);
    for (int number = BEFORE + 1; number <= BEFORE + commits; number++)
        count_commit(way, number, sums, whole);
    way->end();
    check_volume(way->volume, BEFORE + commits);
    print_counts(sums, whole);
}

static void count_row(const struct way *way, int commits)
{
    long sums[COUNTS] = {0}, whole[COUNTS] = {0};
    struct counts begun, before;
    begin_counting(way);
    begun = counts_now();
    make_commits(way, 1, BEFORE);
    before = counts_now();
    make_commits(way, BEFORE + 1, commits);
    add(sums, before.own, counts_now().own);
    way->end();
    add(whole, begun.all, counts_now().all);
    check_volume(way->volume, BEFORE + commits);
    print_counts(sums, whole);
}

/* The layout of volumes, the records of their greatest commit, and the pages of a commit. */
static void take_shapes(char **words)
{
    int layout = atoi(words[0]), records = atoi(words[1]);
    must(layout >= (int)FIRST_LAYOUT && layout <= (int)LAYOUTS && records > 0, "LAYOUT and RECORDS");
    volumes = (struct volumes){(unsigned)layout, (unsigned)records};
    pages = (struct pages){atoi(words[2]), atoi(words[3]), strcmp(words[3], "anywhere") == 0};
    must(pages.count > 0 && pages.count < records, "PAGES");
    must(pages.apart > 0 || pages.anywhere || strcmp(words[3], "aside") == 0, "APART");
}

int main(int count, char **words)
{
    static const char usage[] = "usage: peers turns|rows|counted|counted-row LAYOUT RECORDS PAGES APART COUNT ..";
    must(count >= 8, usage);
    take_shapes(words + 2);
    if (strcmp(words[1], "turns") == 0)
        take_turns(atoi(words[6]), 0, count - 7, words + 7);
    else if (strcmp(words[1], "rows") == 0 && atoi(words[7]) > 0)
        take_turns(atoi(words[6]), atoi(words[7]), count - 8, words + 8);
    else if (strcmp(words[1], "counted") == 0)
        count_commits(way_of(words[7]), atoi(words[6]));
    else if (strcmp(words[1], "counted-row") == 0)
        count_row(way_of(words[7]), atoi(words[6]));
    else
        must(false, usage);
    return 0;
}
