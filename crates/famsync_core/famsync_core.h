/*
 * famsync_core (the core) is a library for programs that use volumes. A volume is one disk file
 * (the volume's file), and contains files. docs/CLAIMS.md lists what is proved about the core. The
 * core makes no system call.
 *
 * The program that uses the core is called the host. Block n of the volume's file is the 4,096
 * bytes at offset 4,096 * n. A page is 4,096 bytes of a file in the volume. The host reads blocks,
 * and supplies them to the core. Pages that the host passes to famsync_core_write wait in the
 * core's memory. The next commit makes all of them durable, or none.
 *
 * To make a commit durable, the core records calls for the host to make: writes and syncs of the
 * volume's file. The host makes these calls in order, and then reports them to the core. A waiting
 * call is a recorded call that the host hasn't reported yet.
 *
 * The program below writes the first page of the first file, and commits.
 *
 *   static void supply(famsync_core *core, int file, uint32_t block)
 *   {
 *       uint8_t bytes[4096];
 *       if (pread(file, bytes, 4096, (off_t)block * 4096) != 4096)
 *           exit(1);
 *       famsync_core_supply(*core, block, bytes, 4096, &core->at);
 *   }
 *
 *   static void make_calls(famsync_core *core, int file)
 *   {
 *       uint32_t kind;
 *       uint64_t offset, length;
 *       const uint8_t *bytes;
 *       while (famsync_core_call(*core, 0, &kind, &offset, &bytes, &length, &core->at) == FAMSYNC_CORE_OK) {
 *           if (kind == FAMSYNC_CORE_CALL_WRITE && pwrite(file, bytes, length, (off_t)offset) != (ssize_t)length)
 *               exit(1);
 *           if (kind == FAMSYNC_CORE_CALL_SYNC && fdatasync(file) != 0)
 *               exit(1);
 *           famsync_core_carried_out(*core, 1, &core->at);
 *       }
 *   }
 *
 *   int main(int count, char **words)
 *   {
 *       int file = open(words[count - 1], O_RDWR);
 *       uint32_t blocks = (uint32_t)(lseek(file, 0, SEEK_END) / 4096), wanted, mark;
 *       uint8_t page[4096];
 *       famsync_core core = {0};
 *       if (famsync_core_begin(blocks, &core.at) != FAMSYNC_CORE_OK)
 *           return 1;
 *       while (famsync_core_open(core, 0, &wanted, &core.at) == FAMSYNC_CORE_WANTED)
 *           supply(&core, file, wanted);
 *       make_calls(&core, file); // finishes commits after a crash
 *       while (famsync_core_read(core, 0, 0, page, 4096, &wanted, &core.at) == FAMSYNC_CORE_WANTED)
 *           supply(&core, file, wanted);
 *       memcpy(page, "hello", 5);
 *       if (famsync_core_write(core, 0, 0, page, 4096, &core.at) != FAMSYNC_CORE_OK)
 *           return 1;
 *       int32_t code;
 *       while ((code = famsync_core_commit(core, &mark, &wanted, &core.at)) == FAMSYNC_CORE_WANTED)
 *           supply(&core, file, wanted);
 *       if (code != FAMSYNC_CORE_OK)
 *           return 1;
 *       make_calls(&core, file);
 *       if (famsync_core_acknowledged(core, &core.at) != mark)
 *           return 1;
 *       puts("the commit is durable");
 *       famsync_core_close(core);
 *       return close(file);
 *   }
 *
 * A session with a volume begins with famsync_core_begin, and ends with famsync_core_close. Below,
 * `core` is the session's handle, of type famsync_core. Each core function except
 * famsync_core_begin takes `core` by value. Each core function except famsync_core_close takes
 * `&core.at` as its last argument (`at`), and sets `core.at` for the next function call.
 *
 * The host must obey these rules, which no function checks:
 *
 * - Keep in `core.at` the value that the previous function call set.
 * - Use a handle only after famsync_core_begin succeeds, and before famsync_core_close.
 * - Call only one function at a time with a handle.
 * - If an argument `count` follows a pointer argument, pass a non-null pointer to `count` bytes.
 * - Use `*bytes` of famsync_core_call only until you call any other core function.
 *
 * The core allocates and frees memory through three functions that the host defines: rattle_alloc,
 * rattle_realloc and rattle_dealloc (below).
 *
 * A block is known if its bytes are in the core's memory. Each page has a fixed block in the
 * volume's file, called its home block. To write a page home means to write it to its home block. A
 * commit is home once all its pages are written home.
 *
 * A result of type int64_t is a number (0 or more), or one of the negative codes. The comment of
 * each function lists its possible codes without the prefix FAMSYNC_CORE_.
 */
#ifndef FAMSYNC_CORE_H
#define FAMSYNC_CORE_H

#include <stdbool.h>
#include <stddef.h>
#include <stdint.h>

#ifdef __cplusplus
extern "C" {
#endif

/* The handle of a session, before and after its volume is opened. */
typedef struct {
    uint8_t *at;
} famsync_core;

enum famsync_core_code {
    FAMSYNC_CORE_OK = 0,
    FAMSYNC_CORE_WANTED = 1, /* The function needs the block `*wanted`. Supply the block, and call
                                the function again. */
    FAMSYNC_CORE_NONE = 2,   /* From famsync_core_call: no waiting call has index `index`. From
                                famsync_core_write_out: no step remains. From famsync_core_log: the
                                volume has no log. From famsync_core_forget: the block is kept. */

    FAMSYNC_CORE_ARGUMENT = -1, /* an argument is invalid */
    FAMSYNC_CORE_NOMEMORY = -2, /* out of memory */
    FAMSYNC_CORE_ORDER = -3,    /* the volume isn't open yet; from famsync_core_open: the volume is
                                   already open */

    /* why a volume isn't opened */
    FAMSYNC_CORE_NOTAVOLUME = -11, /* block 0 doesn't begin with the magic of a layout
                                      (docs/FORMATS.md) */
    FAMSYNC_CORE_DAMAGED = -12,    /* block 0 begins with the magic of a layout, but the volume
                                      breaks a rule of this layout */

    /* why a function fails; these codes, except OTHER, have the same numbers in
       clients/c/famsync.h */
    FAMSYNC_CORE_NOFRAME = -27, /* the next commit would have too many pages */
    FAMSYNC_CORE_DEVICE = -28,  /* out of memory, so the core couldn't record a call */
    FAMSYNC_CORE_BROKEN = -29,  /* a function returned DEVICE earlier: close the session, and
                                   begin a new one */
    FAMSYNC_CORE_EINVAL = -30,  /* the page begins at or past the file's end, or the new length is
                                   above the file's capacity */
    FAMSYNC_CORE_NOFILE = -34,  /* the volume has no such file */
    FAMSYNC_CORE_BUSY = -35,    /* the session has made 2^32 - 1 commits, or the log has no epoch or
                                   commit number left (docs/FORMATS.md) */
    FAMSYNC_CORE_OTHER = -38    /* other failures; no function of this header returns this code */
};

/* The kinds of recorded calls. */
enum famsync_core_kind { FAMSYNC_CORE_CALL_WRITE = 1, FAMSYNC_CORE_CALL_SYNC = 2 };

/* Begins a session with a volume. `blocks` is the number of whole blocks of the volume's file. If
   the function fails, `*at` is unchanged.

   Codes: OK, ARGUMENT (`blocks` is 0), NOMEMORY. */
int32_t famsync_core_begin(uint32_t blocks, uint8_t **at);

/* Supplies a block that the host has read. `bytes` are the block's current 4,096 bytes in the
   volume's file. If the block is already known, nothing changes. The volume need not be open yet.

   Codes: OK, ARGUMENT (no such block, or `count` isn't 4,096), NOMEMORY. */
int32_t famsync_core_supply(famsync_core core, uint32_t block, const uint8_t *bytes, size_t count, uint8_t **at);

/* Returns 1 if a block is known, and 0 otherwise. The volume need not be open yet. */
int32_t famsync_core_is_known(famsync_core core, uint32_t block, uint8_t **at);

/* Opens the volume, which may have any layout. `pages` limits the number of pages of a commit; 0
   sets no limit. The volume's journals or log also limit this number. A successful opening always
   records calls. If commits aren't home, for example after a crash, some of these calls write these
   commits home.

   Codes: OK, WANTED, NOTAVOLUME, DAMAGED, NOMEMORY, DEVICE, BUSY (the log has no epoch left),
   ORDER. After NOMEMORY or DEVICE, close the session, and begin a new one.

   WANTED: the function needs a block that isn't known. The volume isn't open yet, and no call was
   recorded. The function needs block 0 first. Then it may need these blocks (docs/FORMATS.md), in
   any order:

   - layouts 1 to 4: the gates and the open journals;
   - layouts 5 and 6: the selector, the selected start, the log's commits, and blocks after these
     commits;
   - layouts 3 to 6: the lengths block. */
int32_t famsync_core_open(famsync_core core, uint32_t pages, uint32_t *wanted, uint8_t **at);

/* famsync_core_files returns the number of files of the volume. Files are numbered from 0.
   famsync_core_frames returns the greatest number of pages that a commit can have.
   famsync_core_head returns the number of blocks before the first file's home blocks, including the
   blocks of the journals or the log. Codes: ORDER. */
int64_t famsync_core_files(famsync_core core, uint8_t **at);
int64_t famsync_core_frames(famsync_core core, uint8_t **at);
int64_t famsync_core_head(famsync_core core, uint8_t **at);

/* Returns 1 if the work of writing a commit home can share the syncs of later commits, and 0
   otherwise. The result is 1 in layouts 4 to 6. Codes: ORDER. */
int32_t famsync_core_shares_syncs(famsync_core core, uint8_t **at);

/* Sets `*length` to a file's current length in bytes, even if this length still waits for a commit.
   Sets `*pages` to the greatest number of pages that the file can have. Codes: OK, ARGUMENT (no
   such file), ORDER. */
int32_t famsync_core_file(famsync_core core, uint32_t file, uint64_t *length, uint64_t *pages, uint8_t **at);

/* Copies the name of a file to `name`. A name has 1 to 32 bytes, each from '!' to '~'. Adds no null
   byte. Returns the length of the name. Codes: ARGUMENT (no such file, or the name has more than
   `count` bytes), ORDER. */
int64_t famsync_core_file_name(famsync_core core, uint32_t file, uint8_t *name, size_t count, uint8_t **at);

/* Reads a page of a file into `bytes`. The page's bytes past the file's end are 0. Pages are
   numbered from 0.

   Codes: OK, WANTED, ARGUMENT (`count` isn't 4,096), NOFILE, EINVAL, ORDER. */
int32_t famsync_core_read(famsync_core core, uint32_t file, uint64_t page, uint8_t *bytes, size_t count,
                          uint32_t *wanted, uint8_t **at);

/* Writes a whole page of a file. The page waits for the next commit. The page's bytes past the
   file's end become 0. If the function fails, nothing changes.

   Codes: OK, ARGUMENT (`count` isn't 4,096), NOFILE, EINVAL, BROKEN, NOFRAME, NOMEMORY, ORDER. */
int32_t famsync_core_write(famsync_core core, uint32_t file, uint64_t page, const uint8_t *bytes, size_t count,
                           uint8_t **at);

/* famsync_core_staged returns the number of pages that wait for the next commit.
   famsync_core_is_staged returns 1 if the given page waits, and 0 otherwise. Codes: ORDER. */
int64_t famsync_core_staged(famsync_core core, uint8_t **at);
int32_t famsync_core_is_staged(famsync_core core, uint32_t file, uint64_t page, uint8_t **at);

/* Commits all waiting pages and lengths (see famsync_core_set_length). Records the calls that make
   this commit durable. May also record calls that write earlier commits home. If no page or length
   waits, the function records no call for this commit. Sets `*mark` to the commit's number. Each
   session numbers its commits from 1. The commit is durable once famsync_core_acknowledged returns
   at least `*mark`.

   Codes: OK, WANTED, NOMEMORY (call this function again), BROKEN, DEVICE, BUSY, ORDER.

   WANTED and NOMEMORY occur only for volumes with a log (layouts 5 and 6). If the log has no room
   for the commit, the function first makes steps as famsync_core_write_out does. A step or the
   commit may need a block that isn't known. After WANTED or NOMEMORY, calls of finished steps stay
   recorded, and the pages and lengths still wait. */
int32_t famsync_core_commit(famsync_core core, uint32_t *mark, uint32_t *wanted, uint8_t **at);

/* Returns the number of the last acknowledged commit, or 0 if no commit is acknowledged. A commit
   is acknowledged once the host has reported all calls that waited when famsync_core_commit
   returned OK for this commit. Exception: if commit n + 1 is made before commit n is acknowledged,
   commit n is acknowledged only together with commit n + 1. An acknowledged commit is durable.
   Codes: ORDER. */
int64_t famsync_core_acknowledged(famsync_core core, uint8_t **at);

/* Records calls that write commits home. This work consists of steps. The function makes at most
   `most` of them.

   Codes: OK (steps remain), NONE (no step remains), WANTED, NOMEMORY (call this function again),
   BROKEN, DEVICE, ORDER.

   WANTED and NOMEMORY occur only for volumes with a log. After WANTED or NOMEMORY, calls of
   finished steps stay recorded. */
int32_t famsync_core_write_out(famsync_core core, uint32_t most, uint32_t *wanted, uint8_t **at);

/* Returns the number of blocks in all commits for which steps of famsync_core_write_out remain. A
   block in two of these commits counts twice. For a volume with a log, returns `*used` of
   famsync_core_log instead. Codes: ORDER. */
int64_t famsync_core_unwritten(famsync_core core, uint8_t **at);

/* For a volume with a log, sets three numbers:

   - `*blocks`: the number of blocks of the log;
   - `*used`: the number of log blocks in use;
   - `*commits`: the number of commits in these blocks.

   A commit's log blocks are in use until the start of the log (docs/FORMATS.md) moves past the
   commit. Codes: OK, NONE (the volume has journals, and nothing is set), ORDER. */
int32_t famsync_core_log(famsync_core core, uint64_t *blocks, uint64_t *used, uint64_t *commits, uint8_t **at);

/* Sets the length of a file in bytes. The greatest length is the file's capacity (docs/FORMATS.md).
   The new length waits for the next commit. If the file grows, the added pages also wait, like
   written pages. If the growth begins inside a page, this page waits, too. If the function fails,
   nothing changes.

   Codes: OK, WANTED (the block with the file's old end isn't known), NOFILE, EINVAL (also if the
   volume has layout 1 or 2), BROKEN, NOFRAME, NOMEMORY, ORDER. */
int32_t famsync_core_set_length(famsync_core core, uint32_t file, uint64_t length, uint32_t *wanted, uint8_t **at);

/* Returns the number of waiting calls. The volume need not be open yet. */
int64_t famsync_core_waiting(famsync_core core, uint8_t **at);

/* Describes the waiting call that has index `index`. The oldest waiting call has index 0. The host
   makes the calls in the order of their indexes. Sets `*kind` to one of two values:

   - FAMSYNC_CORE_CALL_WRITE: write the `*length` bytes at `*bytes` to the volume's file, at offset
     `*offset`.
   - FAMSYNC_CORE_CALL_SYNC: sync the volume's file.

   Codes: OK, NONE (no call with this index waits). The volume need not be open yet. */
int32_t famsync_core_call(famsync_core core, uint32_t index, uint32_t *kind, uint64_t *offset, const uint8_t **bytes,
                          uint64_t *length, uint8_t **at);

/* Reports that the host has made the `count` oldest waiting calls, in order and successfully. The
   volume need not be open yet. Codes: OK, ARGUMENT (fewer than `count` calls wait; nothing
   changes). */
int32_t famsync_core_carried_out(famsync_core core, uint32_t count, uint8_t **at);

/* Forgets a block: the block isn't known any more. While it isn't known, function calls that need
   it return WANTED. The volume need not be open yet. The core keeps these blocks:

   - each block to which a waiting call writes;
   - once the volume is open, all blocks before the first file's home blocks, except the log's
     blocks.

   Codes: OK, NONE (the block is kept), ARGUMENT (no such block). */
int32_t famsync_core_forget(famsync_core core, uint32_t block, uint8_t **at);

/* Frees the session, and drops its waiting calls. The volume need not be open yet. Call this
   function only once for each handle. */
void famsync_core_close(famsync_core core);

/* The host defines these three functions. They must use the same allocator's malloc, realloc and
   free.

   - `ok`, `p`: on success `ok` is true, and `p` points to the memory. On failure `ok` is false, and
     `p` points to any byte of the host's memory. `p` must never be null.
   - `align`: the required alignment, at most 16.
   - `kept`: rattle_realloc keeps the first `kept` bytes of the memory at `old`. If rattle_realloc
     fails, this memory doesn't change.
   - `size`: if `size` is 0, request at least one byte from the allocator. */
struct rattle_tried {
    bool ok;
    uint8_t *p;
};

struct rattle_tried rattle_alloc(size_t size, size_t align);
struct rattle_tried rattle_realloc(uint8_t *old, size_t kept, size_t size, size_t align);
void rattle_dealloc(uint8_t *old);

#ifdef __cplusplus
}
#endif

#endif
