/* A full disk refuses commits, and ends nothing. The disk is a model: which blocks of the volume are allocated, which
   of them have data, and how many more there is room for. Each block that is written was allocated before, by a commit
   that could still be refused. After a refusal a rollback works; or there is room, and the same commit succeeds. A
   volume can be opened on a full disk, also after a kill. */
#include "test.h"

#include <stdatomic.h>
#include <sys/mman.h>
#include <sys/uio.h>

#define SLOTS 60u /* room for all pages in one commit */
#define PAGES 40u
#define A_MOST (PAGES * 4096u)
#define B_MOST 9000u
#define BLOCKS 600u
#define VOLUMES 8
#define ROUNDS 40
#define PLENTY 100000

static unsigned layout;
static famsync *handle;
static famsync_memory *memory;

/* The disk; a child of this process shares it. */
static struct disk {
    atomic_int room;       /* how many more blocks it has */
    atomic_int unreserved; /* writes of blocks that weren't allocated */
    atomic_int asked;      /* calls that allocate blocks or look for holes */
    bool allocated[BLOCKS], data[BLOCKS];
} * disk;

static int error = ENOSPC; /* how an allocation fails on a full disk */
static atomic_int fails;   /* errno of all allocations, if it isn't 0 */
static bool like_xfs;
static bool is_all_data; /* the system doesn't tell holes from data */

/* Takes a block of the disk. */
static bool take_block(size_t block)
{
    WANT(block < BLOCKS);
    if (disk->allocated[block])
        return true;
    if (atomic_load(&disk->room) == 0)
        return false;
    atomic_fetch_sub(&disk->room, 1);
    disk->allocated[block] = true;
    return true;
}

/* As ext4 does, it keeps what it could allocate. xfs wants room even if all blocks are allocated. */
int fallocate(int file, int mode, off_t offset, off_t length)
{
    WANT(file > 2 && mode == FALLOC_FL_KEEP_SIZE && offset % 4096 == 0 && length > 0 && length % 4096 == 0);
    atomic_fetch_add(&disk->asked, 1);
    errno = atomic_load(&fails);
    if (errno == 0 && like_xfs && atomic_load(&disk->room) == 0)
        errno = error;
    if (errno != 0)
        return -1;
    for (off_t at = offset; at < offset + length; at += 4096)
        if (!take_block((size_t)at / 4096)) {
            errno = error;
            return -1;
        }
    return 0;
}

off_t lseek(int file, off_t offset, int whence)
{
    size_t block = (size_t)offset / 4096;
    struct stat found;
    if (whence != SEEK_DATA && whence != SEEK_HOLE)
        return syscall(SYS_lseek, file, offset, whence);
    atomic_fetch_add(&disk->asked, 1);
    WANT(fstat(file, &found) == 0);
    while (!is_all_data && (off_t)block * 4096 < found.st_size && disk->data[block] == (whence == SEEK_HOLE))
        block++;
    if (is_all_data)
        return whence == SEEK_DATA ? offset : found.st_size;
    errno = ENXIO;
    return (off_t)block * 4096 < found.st_size ? (off_t)block * 4096 : whence == SEEK_HOLE ? found.st_size : -1;
}

/* A write of these bytes, as far as there is room for it. */
static bool note_write(off_t offset, size_t count)
{
    for (size_t block = (size_t)offset / 4096; block * 4096 < (size_t)offset + count; block++) {
        atomic_fetch_add(&disk->unreserved, !disk->allocated[block]);
        if (!take_block(block)) {
            errno = ENOSPC;
            return false;
        }
        disk->data[block] = true;
    }
    return true;
}

ssize_t pwritev(int file, const struct iovec *range, int count, off_t offset)
{
    size_t length = 0;
    for (int i = 0; i < count; i++)
        length += range[i].iov_len;
    return note_write(offset, length) ? syscall(SYS_pwritev, file, range, count, offset, 0) : -1;
}

/* What is allocated of the volume now: blocks that aren't zeros. Or all that famsync_format wrote. */
static void begin_disk(int room)
{
    static const unsigned char zeros[4096];
    unsigned char block[4096];
    int file = open(volume, O_RDONLY | O_CLOEXEC);
    memset(disk->allocated, 0, sizeof disk->allocated);
    memset(disk->data, 0, sizeof disk->data);
    for (size_t i = 0; pread(file, block, 4096, (off_t)i * 4096) == 4096; i++) {
        WANT(i < BLOCKS);
        disk->allocated[i] = disk->data[i] = memcmp(block, zeros, 4096) != 0;
    }
    WANT(close(file) == 0);
    atomic_store(&disk->room, room);
    atomic_store(&disk->unreserved, 0);
}

static unsigned below(unsigned most)
{
    return (unsigned)rand() % most;
}

/* What the files are, as they were last set and as they were last committed. */
static struct model {
    unsigned char a[A_MOST], b[B_MOST];
    size_t length; /* of `b` */
} now, committed;

static void make(void)
{
    char files[60];
    snprintf(files, sizeof files, "a=%u b=0/%u", A_MOST, B_MOST);
    make_hole_of(layout, SLOTS, files);
    memset(&now, 0, sizeof now);
    committed = now;
    begin_disk(PLENTY);
    for (unsigned block = 1; block < 4; block++)
        disk->allocated[block] = true; /* as famsync_format makes it */
}

static void want_model(const struct model *model)
{
    static struct model found;
    WANT_CODE(famsync_read(handle, 0, 0, found.a, A_MOST, NULL), FAMSYNC_OK);
    WANT(memcmp(found.a, model->a, A_MOST) == 0);
    WANT(famsync_file_length(handle, 1) == model->length);
    WANT_CODE(famsync_read(handle, 1, 0, found.b, model->length, NULL), FAMSYNC_OK);
    WANT(memcmp(found.b, model->b, model->length) == 0);
}

static void begin(bool readonly, bool mapped)
{
    memory = NULL;
    handle = opened_with((struct famsync_options){.readonly = readonly, .foreground = below(2) == 0});
    if (mapped)
        WANT_CODE(famsync_memory_open(handle, "a", &memory), FAMSYNC_OK);
}

static void end(void)
{
    if (memory)
        WANT_CODE(famsync_memory_close(memory), FAMSYNC_OK);
    WANT_CODE(famsync_close(handle), FAMSYNC_OK);
    WANT(atomic_load(&disk->unreserved) == 0);
}

static void store(unsigned page)
{
    size_t at = page * 4096 + below(4000), count = 1 + below(96);
    memset(now.a + at, (int)below(256), count);
    if (memory)
        memcpy((unsigned char *)famsync_memory_at(memory) + at, now.a + at, count);
    else
        WANT_CODE(famsync_write(handle, 0, at, now.a + at, count, NULL), FAMSYNC_OK);
}

static void set_length(size_t length)
{
    if (length < now.length)
        memset(now.b + length, 0, now.length - length);
    now.length = length;
    WANT_CODE(famsync_setlength(handle, "b", length), FAMSYNC_OK);
}

static void change(void)
{
    for (unsigned count = 1 + below(below(4) ? 5 : 20), page = below(PAGES); count > 0; count--)
        store(below(2) ? page++ % PAGES : below(PAGES));
    if (below(3) == 0)
        set_length(below(B_MOST + 1));
    if (below(6) == 0)
        set_length(0);
}

/* A commit; whether it was refused, which changes nothing. */
static bool is_refused(void)
{
    int code = famsync_msync(handle, NULL);
    if (code == FAMSYNC_NOSPACE) {
        WANT(errno == error);
        want_model(&now);
        return true;
    }
    WANT_CODE(code, FAMSYNC_OK);
    committed = now;
    return false;
}

/* The disk is full as the volume is opened, to read and to write. */
static void open_full(void)
{
    int room = atomic_exchange(&disk->room, 0);
    if (commits_left() == 0) {
        begin(true, false);
        want_model(&committed);
        end();
    }
    begin(false, below(2));
    want_model(&committed);
    now = committed;
    atomic_store(&disk->room, room);
}

static void after_refusal(void)
{
    error = below(3) ? ENOSPC : below(2) ? EDQUOT : EFBIG;
    switch (below(4)) {
    case 0:
        WANT_CODE(famsync_rollback(handle), FAMSYNC_OK);
        now = committed;
        want_model(&committed);
        break;
    case 1:
        end();
        open_full();
        break;
    case 2:
        change();
        break;
    default:
        atomic_fetch_add(&disk->room, 200);
        WANT(!is_refused());
        atomic_store(&disk->room, 0);
    }
    if (below(2))
        atomic_fetch_add(&disk->room, (int)below(30));
}

/* A child commits, and ends without a close: the disk is full as its commits are recovered. */
static void kill_child(void)
{
    int status;
    end();
    fflush(stdout);
    pid_t child = fork();
    if (child == 0) {
        begin(false, below(2));
        for (unsigned commits = 1 + below(4); commits > 0; commits--) {
            change();
            (void)is_refused();
        }
        FILE *file = fopen("committed", "w");
        WANT(file && fwrite(&committed, sizeof committed, 1, file) == 1 && fclose(file) == 0);
        WANT(atomic_load(&disk->unreserved) == 0);
        _exit(0);
    }
    WANT(child > 0 && waitpid(child, &status, 0) == child && status == 0);
    FILE *file = fopen("committed", "r");
    WANT(file && fread(&committed, sizeof committed, 1, file) == 1 && fclose(file) == 0);
    open_full();
}

/* A session on a disk that is full again and again; the number of commits that were refused. */
static unsigned fill_again_and_again(void)
{
    unsigned refused = 0;
    make();
    like_xfs = below(2);
    begin(false, true);
    atomic_store(&disk->room, (int)below(40));
    for (unsigned round = 0; round < ROUNDS; round++) {
        change();
        if (is_refused()) {
            refused++;
            after_refusal();
        }
        if (below(8) == 0 && memcmp(&now, &committed, sizeof now) == 0)
            kill_child();
        if (below(8) == 0)
            usleep(15000); /* the library's thread writes home */
    }
    now = committed;
    end();
    begin(false, false);
    want_model(&committed);
    end();
    like_xfs = false;
    return refused;
}

/* A new volume can be opened on a full disk, if famsync_format made it. One that has only its blocks that aren't zeros
   can be read, and be opened once there is room. */
static void open_new(void)
{
    make();
    begin_disk(0);
    int code = famsync_open(volume, NULL, &handle);
    WANT_CODE(code, FAMSYNC_NOSPACE);
    WANT(errno == ENOSPC && handle == NULL);
    begin(true, false);
    want_model(&committed);
    WANT_CODE(famsync_close(handle), FAMSYNC_OK);
    atomic_store(&disk->room, 2);
    begin(false, false);
    atomic_store(&disk->unreserved, 0);
    end();
}

static void open_formatted(void)
{
    const struct famsync_new_file file = {"a", A_MOST, 0};
    struct famsync_plan plan = {.size = sizeof plan, .layout = layout, .files = 1, .file = &file};
    plan.log = log_blocks(SLOTS);
    WANT(unlink(volume) == 0);
    WANT_CODE(famsync_format(volume, &plan), FAMSYNC_OK);
    struct stat found;
    WANT(stat(volume, &found) == 0);
    begin_disk(0);
    /* the blocks before the log are written, also those of zeros */
    int blocks = open(volume, O_RDONLY | O_CLOEXEC);
    for (off_t block = 0; block < 4; block++) {
        WANT(syscall(SYS_lseek, blocks, block * 4096, SEEK_DATA) == block * 4096);
        disk->allocated[block] = disk->data[block] = true;
    }
    WANT(close(blocks) == 0);
    handle = opened();
    memory = NULL;
    end();
}

/* Once all blocks are allocated, no commit asks for one. */
static void ask_once(void)
{
    make();
    begin(false, true);
    for (unsigned round = 0; round < 2 * PAGES; round++) {
        store(round % PAGES);
        set_length(round % 2 ? 0 : B_MOST);
        WANT(!is_refused());
    }
    int asked = atomic_load(&disk->asked);
    for (unsigned round = 0; round < 2 * PAGES; round++) {
        store(round % PAGES);
        WANT(!is_refused());
    }
    WANT(atomic_load(&disk->asked) == asked);
    end();
}

/* A growth that is taken back needs no room. */
static void take_growth_back(void)
{
    make();
    begin(false, false);
    store(0);
    WANT(!is_refused());
    store(0);
    set_length(B_MOST);
    atomic_store(&disk->room, 0);
    WANT(is_refused());
    set_length(0);
    atomic_store(&disk->room, 4); /* of the log and the lengths, besides the first page */
    WANT(!is_refused());
    end();
}

/* Other failures: a broken disk and want of memory refuse a commit, too. A file system that can't allocate is asked
   once. A system that doesn't tell holes from data is noticed. */
static void fail_otherwise(void)
{
    make();
    begin(false, true);
    store(1);
    atomic_store(&fails, EIO);
    WANT_CODE(famsync_msync(handle, NULL), FAMSYNC_DEVICE);
    WANT(errno == EIO);
    atomic_store(&fails, ENOMEM);
    WANT_CODE(famsync_msync(handle, NULL), FAMSYNC_NOMEMORY);
    atomic_store(&fails, 0);
    WANT(!is_refused());
    is_all_data = true;
    end();
    make();
    begin(false, true);
    store(2);
    atomic_store(&disk->room, 0);
    WANT(is_refused());
    atomic_store(&disk->room, PLENTY);
    WANT(!is_refused());
    end();
    is_all_data = false;
    make();
    atomic_store(&fails, EOPNOTSUPP);
    begin(false, true);
    for (unsigned page = 0, asked = 0; page < 4; page++) {
        store(page);
        WANT(!is_refused());
        asked = page == 0 ? (unsigned)atomic_load(&disk->asked) : asked;
        WANT((unsigned)atomic_load(&disk->asked) == asked);
    }
    WANT_CODE(famsync_memory_close(memory), FAMSYNC_OK);
    WANT_CODE(famsync_close(handle), FAMSYNC_OK);
    atomic_store(&fails, 0);
}

int main(void)
{
    disk = mmap(NULL, sizeof *disk, PROT_READ | PROT_WRITE, MAP_SHARED | MAP_ANONYMOUS, -1, 0);
    WANT(disk != MAP_FAILED);
    make_folder();
    WANT(chdir(folder) == 0);
    for (layout = FIRST_LAYOUT; layout <= LAYOUTS; layout++) {
        unsigned refused = 0;
        for (unsigned i = 0; i < VOLUMES; i++)
            refused += fill_again_and_again();
        printf("clients/c: full_disk: layout %u: %u of %u commits refused\n", layout, refused, VOLUMES * ROUNDS);
        WANT(refused > VOLUMES);
        open_new();
        open_formatted();
        ask_once();
        take_growth_back();
        fail_otherwise();
    }
    puts("clients/c: full_disk: as it should be");
    return 0;
}
