/* Any offset and any count, refusals with how far they came, and that a commit is there after the session. */
#include "test.h"

static unsigned char pattern(size_t at, unsigned round)
{
    return (unsigned char)(at * 7 + at / 4096 * 13 + round * 101 + 1);
}

#define LENGTH 300000u

/* Writes at each of some places, and reads what is there then. */
static void write_each(famsync *handle, unsigned char *bytes)
{
    static unsigned char found[LENGTH];
    /* clang-format off */
    static const size_t cases[][2] = {
        {0, 0},     {0, 1},        {1, 7},         {4093, 8},     {4093, 9},         {65535, 1},      {65535, 2},
        {65536, 0}, {4096, 4095},  {4095, 4097},   {65537, 9},    {0, 65535},        {1, 65536},      {65536, 65537},
        {8, 131072}, {4093, 70000}, {299999, 1},    {230000, 70000},
    };
    /* clang-format on */
    size_t done;
    for (unsigned round = 0; round < sizeof cases / sizeof *cases; round++) {
        size_t place = cases[round][0], count = cases[round][1];
        for (size_t i = 0; i < count; i++)
            bytes[place + i] = pattern(i, round);
        WANT_CODE(famsync_write(handle, 0, place, bytes + place, count, &done), FAMSYNC_OK);
        WANT(done == count);
        memset(found, 0, sizeof found);
        WANT_CODE(famsync_read(handle, 0, place, found, count, &done), FAMSYNC_OK);
        WANT(done == count && memcmp(found, bytes + place, count) == 0);
    }
}

static void any_offset_any_count(void)
{
    static unsigned char bytes[LENGTH], found[LENGTH];
    uint64_t mark;
    make_volume(100, "a=300000 b=5000");
    famsync *handle = opened();
    WANT(famsync_files(handle) == 2 && famsync_frames(handle) == 100);
    WANT(strcmp(famsync_file_name(handle, 1), "b") == 0 && famsync_file_length(handle, 1) == 5000);
    WANT(famsync_file_name(handle, 2) == NULL);
    write_each(handle, bytes);
    WANT(famsync_acknowledged(handle) == 0);
    WANT_CODE(famsync_msync(handle, &mark), FAMSYNC_OK);
    WANT(mark == 1 && famsync_acknowledged(handle) == 1);
    WANT_CODE(famsync_msync(handle, &mark), FAMSYNC_OK);
    WANT(mark == 2 && famsync_acknowledged(handle) == 2);
    /* not committed: gone with the session */
    WANT_CODE(famsync_write(handle, 0, 0, "other", 5, NULL), FAMSYNC_OK);
    WANT_CODE(famsync_close(handle), FAMSYNC_OK);
    handle = opened();
    WANT_CODE(famsync_read(handle, 0, 0, found, sizeof found, NULL), FAMSYNC_OK);
    WANT(memcmp(found, bytes, sizeof found) == 0);
    WANT_CODE(famsync_close(handle), FAMSYNC_OK);
}

static void want_refused(famsync *handle, unsigned file, uint64_t offset, size_t count, int code)
{
    static const unsigned char bytes[20000] = {1};
    size_t done = 99;
    WANT_CODE(famsync_write(handle, file, offset, bytes, count, &done), code);
    WANT(done == 0);
}

static void want_read(famsync *handle, unsigned file, uint64_t offset, size_t count, size_t wanted)
{
    static unsigned char bytes[20000];
    size_t done = 99;
    WANT_CODE(famsync_read(handle, file, offset, bytes, count, &done), FAMSYNC_OK);
    WANT(done == wanted);
}

static void short_reads(famsync *handle)
{
    want_read(handle, 1, 4000, 1000, 1000);
    want_read(handle, 1, 4000, 1001, 1000);
    want_read(handle, 1, 4999, 1000, 1);
    want_read(handle, 1, 5000, 1000, 0);
    want_read(handle, 1, 8191, 1000, 0);
    want_read(handle, 1, 8192, 1000, 0);
    want_read(handle, 1, UINT64_MAX, 1000, 0);
    want_read(handle, 1, UINT64_MAX - 999, 1000, 0);
    WANT_CODE(famsync_read(handle, 1, 0, NULL, 0, NULL), FAMSYNC_OK);
}

static void refusals(void)
{
    unsigned char byte = 1;
    size_t done = 99;
    famsync *handle = opened();
    short_reads(handle);
    want_refused(handle, 1, 4999, 2, FAMSYNC_EINVAL);
    want_refused(handle, 1, 4096, 905, FAMSYNC_EINVAL);
    want_refused(handle, 1, 0, 5001, FAMSYNC_EINVAL);
    want_refused(handle, 1, 5000, 1, FAMSYNC_EINVAL);
    want_refused(handle, 1, 8192, 1, FAMSYNC_EINVAL);
    want_refused(handle, 1, UINT64_MAX, 1, FAMSYNC_EINVAL);
    want_refused(handle, 1, UINT64_MAX - 10, 20, FAMSYNC_EINVAL);
    want_refused(handle, 2, 0, 1, FAMSYNC_NOFILE);
    want_refused(handle, UINT32_MAX, 0, 0, FAMSYNC_NOFILE);
    want_refused(handle, 1, 5000, 0, FAMSYNC_OK);
    WANT_CODE(famsync_read(handle, 2, 0, &byte, 1, &done), FAMSYNC_NOFILE);
    WANT(done == 0);
    WANT_CODE(famsync_read(handle, 0, 0, NULL, 1, &done), FAMSYNC_ARGUMENT);
    WANT_CODE(famsync_write(handle, 0, 0, NULL, 1, &done), FAMSYNC_ARGUMENT);
    WANT_CODE(famsync_read(NULL, 0, 0, &byte, 1, &done), FAMSYNC_ARGUMENT);
    WANT_CODE(famsync_write(NULL, 0, 0, &byte, 1, &done), FAMSYNC_ARGUMENT);
    /* nothing was written, and the session goes on */
    WANT_CODE(famsync_read(handle, 1, 0, &byte, 1, NULL), FAMSYNC_OK);
    WANT(byte == 0);
    WANT_CODE(famsync_write(handle, 1, 4999, "x", 1, &done), FAMSYNC_OK);
    WANT(done == 1);
    WANT_CODE(famsync_msync(handle, NULL), FAMSYNC_OK);
    WANT_CODE(famsync_read(handle, 1, 4999, &byte, 1, NULL), FAMSYNC_OK);
    WANT(byte == 'x');
    WANT_CODE(famsync_close(handle), FAMSYNC_OK);
}

static void more_pages_than_a_commit_has(void)
{
    static unsigned char bytes[20 * 4096];
    size_t done;
    make_volume(8, "a=81920");
    famsync *handle = opened();
    /* reads take no room of a commit */
    WANT_CODE(famsync_read(handle, 0, 0, bytes, sizeof bytes, NULL), FAMSYNC_OK);
    memset(bytes, 7, sizeof bytes);
    WANT_CODE(famsync_write(handle, 0, 0, bytes, sizeof bytes, &done), FAMSYNC_NOFRAME);
    WANT(done == 0);
    WANT_CODE(famsync_write(handle, 0, 1, bytes, 8 * 4096, &done), FAMSYNC_NOFRAME); /* of nine pages */
    WANT_CODE(famsync_write(handle, 0, 0, bytes, 6 * 4096, &done), FAMSYNC_OK);
    WANT(done == 6 * 4096);
    WANT_CODE(famsync_write(handle, 0, 4 * 4096, bytes, 5 * 4096, &done), FAMSYNC_NOFRAME); /* three more */
    WANT_CODE(famsync_write(handle, 0, 4 * 4096, bytes, 4 * 4096, &done), FAMSYNC_OK);      /* two more */
    WANT_CODE(famsync_write(handle, 0, 0, bytes, 8 * 4096, &done), FAMSYNC_OK);             /* none more */
    WANT_CODE(famsync_write(handle, 0, 8 * 4096, bytes, 1, &done), FAMSYNC_NOFRAME);
    WANT_CODE(famsync_read(handle, 0, 8 * 4096, bytes, 4096, &done), FAMSYNC_OK);
    WANT(bytes[0] == 0);
    memset(bytes, 7, sizeof bytes);
    /* what is written can be committed, and then there is room */
    WANT_CODE(famsync_msync(handle, NULL), FAMSYNC_OK);
    for (unsigned i = 1; i < 20; i++) {
        WANT_CODE(famsync_write(handle, 0, i * 4096, bytes, 4096, NULL), FAMSYNC_OK);
        if (i % 8 == 0)
            WANT_CODE(famsync_msync(handle, NULL), FAMSYNC_OK);
    }
    WANT_CODE(famsync_msync(handle, NULL), FAMSYNC_OK);
    WANT_CODE(famsync_close(handle), FAMSYNC_OK);
    handle = opened();
    WANT_CODE(famsync_read(handle, 0, 0, bytes, sizeof bytes, NULL), FAMSYNC_OK);
    for (size_t i = 0; i < sizeof bytes; i++)
        WANT(bytes[i] == 7);
    WANT_CODE(famsync_close(handle), FAMSYNC_OK);
}

int main(void)
{
    any_offset_any_count();
    refusals();
    more_pages_than_a_commit_has();
    printf("clients/c: ranges: as it should be\n");
    return 0;
}
