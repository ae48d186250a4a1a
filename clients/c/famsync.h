/*
 * libfamsync: a library for files whose changes become durable together. A volume is one disk file
 * (the volume's file) that contains up to 64 files. A commit makes all changes since the previous
 * commit durable, or none.
 *
 * famsync_format and the command `famsync format` make volumes. famsync_open begins a session with
 * a volume, locks the volume's file, and sets `*handle` to the session's handle. At any time a
 * volume can have either one session that writes, or any number of sessions that only read.
 * Commands of the program `famsync` count as sessions, too.
 *
 * A program can access the bytes of a file in two ways:
 *
 *   read and write   famsync_read, famsync_write, famsync_msync: any range of the file's bytes, as
 *                    with pread and pwrite
 *   plain memory     famsync_memory_open, famsync_memory_at, famsync_msync: loads and stores
 *                    through a pointer
 *
 * One session may use both ways, even for the same file.
 *
 * famsync_msync commits all changes of a session. The commit is acknowledged when the call returns
 * FAMSYNC_OK. If this process is killed or the system crashes, the next session finds all changes
 * up to one commit, and no later changes. This commit is the last acknowledged commit, or a later,
 * unacknowledged commit.
 *
 * A file is divided into pages, and the volume's file into blocks, of 4,096 bytes each. Each page
 * has a block of its own, called the page's place. The volume's file also contains a log. A
 * commit first writes the changed pages to the log. Later the library writes these pages to their
 * places.
 *
 * Each call that returns an int returns FAMSYNC_OK or one of the negative codes below.
 * famsync_strerror describes a code, and famsync_error the last failure. Any number of threads may
 * use one handle. Their calls may wait for each other. If a thread is canceled within a call, the
 * call still completes.
 *
 * A session belongs to the process that called famsync_open. Only this process keeps the volume
 * locked. A forked process gets copies of the handle and of plain memory. In the forked process:
 *
 *   - famsync_close returns FAMSYNC_OK, but does nothing. The copied handle uses memory until the
 *     forked process ends or calls exec.
 *   - famsync_memory_close returns FAMSYNC_OK, and frees the copied memory.
 *   - Other calls that take such a copy and return an int fail with FAMSYNC_FORKED.
 *
 * A child of vfork must not call the library. The child's stores to plain memory count as stores of
 * the parent.
 *
 * A file can't grow past its capacity, which is set when the volume is made. A layout is one of six
 * formats of a volume. The library uses layouts 5 and 6. Only the program `famsync` uses layouts 1
 * to 4.
 */
#ifndef FAMSYNC_H
#define FAMSYNC_H

#include <stddef.h>
#include <stdint.h>

/* The version of this header. */
#define FAMSYNC_VERSION "0.3.0"
#define FAMSYNC_VERSION_MAJOR 0
#define FAMSYNC_VERSION_MINOR 3
#define FAMSYNC_VERSION_PATCH 0

#ifdef __cplusplus
extern "C" {
#endif

enum famsync_code {
    FAMSYNC_OK = 0,

    FAMSYNC_ARGUMENT = -1, /* an argument is invalid */
    FAMSYNC_NOMEMORY = -2, /* memory couldn't be allocated */
    FAMSYNC_SYSTEM = -3,   /* a system call failed, and errno has the cause; EPROTO means a bug in
                              the library */
    FAMSYNC_INUSE = -6,    /* another session has locked the volume's file, or a backup is being
                              written to this file */
    FAMSYNC_SUSPECT = -7,  /* An earlier sync failed, so the volume is flagged as suspect
                              (see famsync_msync and the option `trust`). */
    FAMSYNC_FORKED = -11,  /* a forked process used its copy of the handle */
    FAMSYNC_TORN = -12,    /* Plain memory was closed after a failed famsync_msync (see
                              famsync_memory_close), a rollback failed halfway, or a thread ended
                              within a group (see famsync_begin). Call famsync_rollback before the
                              next commit. */

    /* why a volume isn't opened */
    FAMSYNC_NOTREGULAR = -13, /* the path names a folder, a device, a pipe or a socket */
    FAMSYNC_NAMES = -14,      /* the file has several names (hard links), so another process could
                                 use it under another name */
    FAMSYNC_REPLACED = -15,   /* Other programs replaced the file while the library was opening
                                 it. */
    FAMSYNC_NOTAVOLUME = -16, /* the file doesn't begin like a volume */
    FAMSYNC_DAMAGED = -17,    /* the file begins like a volume, but its bytes or its length break
                                 the rules of the format */
    FAMSYNC_LAYOUT = -47,     /* The volume has one of layouts 1 to 4. Copy it with the command
                                 `famsync migrate --layout 5 OLD NEW`. */
    FAMSYNC_SHAPE = -18,      /* the option `frames` is above the volume's limit (see
                                 famsync_format) */

    /* why an access or a commit is refused */
    FAMSYNC_NOFRAME = -27, /* more pages were written or added than one commit can have */
    FAMSYNC_DEVICE = -28,  /* a read, a write or a sync of the volume failed; errno has the cause */
    FAMSYNC_BROKEN = -29,  /* a write or a sync failed earlier, so the session is over */
    FAMSYNC_NOSPACE = -46, /* the disk is full, or a quota is used up; errno has the cause (see
                              famsync_msync and famsync_open) */
    FAMSYNC_EINVAL = -30,  /* a write past the file's end, or a length that the file can't have */
    FAMSYNC_OVERLAP = -33, /* plain memory of the file is already open */
    FAMSYNC_NOFILE = -34,  /* the volume has no such file */
    FAMSYNC_BUSY = -35,    /* From famsync_backup: another backup is being made. From
                              famsync_msync: the session has made 2^32 - 1 commits, or a thread
                              stored to plain memory during the commit (only with
                              FAMSYNC_TRACK_KERNEL). From famsync_open and famsync_rollback: no
                              number is left for another opening (a volume allows at most 2^64 - 2
                              openings). From a commit or a
                              rollback: this thread holds a group (see famsync_begin). From
                              famsync_close: a group is open. */

    /* the suspect flag (see famsync_msync), and sessions that only read */
    FAMSYNC_UNMARKED = -39,     /* a sync failed, and the library couldn't make the suspect flag
                                   durable */
    FAMSYNC_NEEDSOPENING = -40, /* the volume must first be opened once without the option
                                   `readonly` (see famsync_open) */
    FAMSYNC_READONLY = -41,     /* the session only reads */

    /* plain memory */
    FAMSYNC_ADDRESS = -42,  /* plain memory can't be at the given address */
    FAMSYNC_TRACKING = -44, /* the system can't track stores in the requested way */

    FAMSYNC_TRANSACTION = -45 /* a transaction is open (see famsync_transaction_begin) */
};

typedef struct famsync famsync;
typedef struct famsync_memory famsync_memory;

/* A buffer of this size has room for any message of famsync_open (see the option `message`). */
#define FAMSYNC_MESSAGE_SIZE 9000

/* The options of famsync_open. A null pointer as `options` means that all options are 0.

   Set `size` to the size of this structure. Later versions of the library may add fields at the
   end. The library learns from `size` which fields the program's structure has. If `size` is 0, the
   library ignores the fields after `readonly`. If the program's structure is larger than the
   library's, the additional bytes must be 0 (otherwise FAMSYNC_ARGUMENT). */
struct famsync_options {
    size_t size;
    int trust;           /* not 0: open the volume even if it is flagged as suspect, and remove
                            the flag */
    unsigned frames;     /* the most pages that one commit may have; 0 means the limit of the
                            volume */
    unsigned copies;     /* ignored */
    int foreground;      /* not 0: the library starts no thread (see famsync_msync) */
    char *message;       /* a buffer for one line that explains why the volume wasn't opened */
    size_t message_size; /* the buffer's size in bytes; a longer message is cut off */
    unsigned wait_ms;    /* how many milliseconds to wait for a volume that is in use */
    int readonly;        /* not 0: the session only reads */
    int resident;        /* not 0: famsync_memory_open reads the whole file instead of mapping it */
    size_t budget;       /* the most bytes that committed pages of plain memory and their copies may
                            use (see famsync_memory_open); 0 means 64 MB */
    int tracking;        /* FAMSYNC_TRACK_SIGNALS or FAMSYNC_TRACK_KERNEL; see
                            famsync_memory_open */
    int fixed;           /* not 0: the length of open plain memory never changes: famsync_setlength
                            and famsync_rollback fail with FAMSYNC_OVERLAP instead */
};

/* FAMSYNC_TRACK_SIGNALS: the library's handler of SIGSEGV tracks stores to plain memory.
   FAMSYNC_TRACK_KERNEL: the kernel tracks them. */
enum famsync_tracking { FAMSYNC_TRACK_SIGNALS = 0, FAMSYNC_TRACK_KERNEL = 1 };

/* Returns the version of the library that this program runs with. If the library's core wasn't
   proved, " (core not proved)" follows. */
const char *famsync_version(void);

/* A file of a new volume. `name` has 1 to 32 characters from '!' to '~'. `length` and `capacity`
   are in bytes. `capacity` is the file's greatest possible length; 0 means `length`. */
struct famsync_new_file {
    const char *name;
    uint64_t length;
    uint64_t capacity;
};

/* A new volume. Set `size` to the size of this structure. Later versions of the library may add
   fields at the end. */
struct famsync_plan {
    size_t size;
    unsigned layout;                     /* 5 or 6; 0 means 5 */
    unsigned files;                      /* the number of files, 1 to 64 */
    const struct famsync_new_file *file; /* the files */
    int preallocate;                     /* not 0: allocate all blocks of the volume now; 0:
                                            allocate each block before its first write */
    char *message;                       /* a buffer for one line that explains why the volume
                                            wasn't made */
    size_t message_size;                 /* the buffer's size in bytes; a longer line is cut off */
    unsigned log;                        /* the number of blocks of the log, 4 to 2^24; 0 means
                                            16,384 (64 MB) */
    uint64_t key;                        /* layout 6: the key of the commits' digests (checksums); 0
                                            means a random key */
};

/* Makes a volume in a new file with the path `volume` (below: VOLUME). The files in the volume
   contain zeros. When the call succeeds, the volume is durable. If the call fails or the process is
   killed, the new file VOLUME either is complete or doesn't exist. If the system lacks unnamed
   files (O_TMPFILE) or /proc, the library makes the volume in VOLUME.new. Afterwards the library
   renames VOLUME.new to VOLUME. VOLUME.new may remain if the process is killed or the system
   crashes.

   A commit can have at most 65,534 pages, or fewer if the log is short. The log must have room for
   the pages, a list of the pages, a block with the files' lengths, and one free block. So a log of
   16,384 blocks allows 16,366 pages.

   Without `preallocate`, commits fail with FAMSYNC_NOSPACE while the disk is full.

   A commit makes two syncs in layout 5, and one in layout 6. Layout 6 assumes that no partly
   written commit and no old bytes in the log match their digest.

   FAMSYNC_ARGUMENT: the plan is invalid. `message` has the reason, unless `size` is invalid.
   FAMSYNC_SYSTEM with EEXIST: VOLUME or VOLUME.new already exists. */
int famsync_format(const char *volume, const struct famsync_plan *plan);

/* Begins a session with a volume. The volume's file must be a regular file with only one name. If
   the path is a symbolic link, the library opens the link's target. The file is locked until the
   session ends. On failure `*handle` is set to a null pointer.

   FAMSYNC_INUSE: after `wait_ms` milliseconds the file is still locked by another session, or by a
   backup to this file.
   FAMSYNC_SYSTEM with ENAMETOOLONG: the file's name has more than 247 bytes.
   FAMSYNC_NOSPACE: the disk is full, and the opening would write to blocks that aren't allocated.
   Nothing is lost. The library, `famsync format` and `famsync migrate` allocate these blocks in
   advance. Other commands and version 0.3 don't, and other programs can make holes in the file.

   With the option `readonly`:

   - The library opens the file only for reading, and writes nothing. The option `trust` has no
     effect.
   - FAMSYNC_NEEDSOPENING: some committed pages aren't in their places yet, or the volume is flagged
     as suspect. Open the volume once without `readonly`, and close it. If the volume is flagged,
     this opening needs `trust`.
   - famsync_write, famsync_setlength, famsync_msync, famsync_rollback, famsync_begin,
     famsync_memory_touch and the calls for transactions return FAMSYNC_READONLY.
   - A store to plain memory raises SIGSEGV, which the library doesn't handle. */
int famsync_open(const char *volume, const struct famsync_options *options, famsync **handle);

/* Ends a session and frees the handle. Changes since the last commit are lost. No other call with
   the handle may be in progress. famsync_close first writes committed pages to their places.

   FAMSYNC_ARGUMENT: plain memory of the handle is still open. The session continues.
   FAMSYNC_BUSY: a group is open (see famsync_begin). The session continues.
   FAMSYNC_DEVICE: a write or a sync failed during the session, or a read failed during this call.
   Even if the call returns FAMSYNC_DEVICE, FAMSYNC_UNMARKED or FAMSYNC_NOMEMORY, the handle is
   freed, and all acknowledged commits are durable. */
int famsync_close(famsync *handle);

/* famsync_files returns the number of files of the volume. Files are numbered from 0.
   famsync_file_name returns the name of a file, or a null pointer if there is no such file.
   famsync_file_length returns the current length of a file, or 0 if there is no such file. The
   current length may still be uncommitted. famsync_capacity returns the greatest length that a
   file can have, or 0 if there is no such file. */
unsigned famsync_files(const famsync *handle);
const char *famsync_file_name(const famsync *handle, unsigned file);
uint64_t famsync_file_length(const famsync *handle, unsigned file);
uint64_t famsync_capacity(const famsync *handle, unsigned file);

/* Returns the greatest number of pages that one commit of this session can have. */
unsigned famsync_frames(const famsync *handle);

/* Sets the length of a file, as ftruncate does. FAMSYNC_EINVAL: the length is more than the file's
   capacity. If the file shrinks, the bytes past its new end are lost. If the file grows, the added bytes are zeros.
   Like a write, the new length becomes durable with the next famsync_msync.

   All added pages wait for the next commit, like written pages. If the file's old end is within a
   page, this page waits, too. FAMSYNC_NOFRAME: more pages would wait than one commit can have. In
   this case grow the file in steps, with a famsync_msync after each step. A call that fails changes
   nothing.

   If plain memory of the file is open, this memory grows or shrinks in place. The program must no
   longer use bytes past the new end. FAMSYNC_SYSTEM: the system refused to resize the memory.
   FAMSYNC_OVERLAP: plain memory of the file is open, and the option `fixed` is set. */
int famsync_setlength(famsync *handle, const char *file, uint64_t length);

/* Reads `count` bytes of a file from `offset` on. These bytes include uncommitted changes of this
   session. `*done` is set to the number of bytes read; `done` may be a null pointer. If the file
   ends before `offset` + `count`, the call reads only the bytes up to the file's end, and returns
   FAMSYNC_OK. If a read of the volume fails, `*done` is the number of bytes read before the
   failure. */
int famsync_read(famsync *handle, unsigned file, uint64_t offset, void *bytes, size_t count, size_t *done);

/* Writes `count` bytes to a file from `offset` on. `*done` is set to the number of bytes written;
   `done` may be a null pointer. The written bytes wait in memory for the next famsync_msync.

   FAMSYNC_EINVAL: a written byte would be past the file's end; famsync_setlength makes a file
   longer. FAMSYNC_NOFRAME: more pages would wait than one commit can have. Pages of plain memory that
   were stored to wait, too. In both cases nothing is written.

   FAMSYNC_DEVICE: the library couldn't read a page of which the call writes only a part. After
   FAMSYNC_DEVICE or FAMSYNC_NOMEMORY, `*done` is the number of bytes written before the failure.

   If plain memory of the file is open, famsync_read and famsync_write use this memory. A write is
   then a store to this memory. */
int famsync_write(famsync *handle, unsigned file, uint64_t offset, const void *bytes, size_t count, size_t *done);

/* Commits all changes of this session: writes, stores to plain memory, and lengths. A commit makes
   all of these changes durable, or none. The call returns FAMSYNC_OK when the changes are durable.
   `*mark` is set to the commit's number, counted from 1 in each session; `mark` may be a null
   pointer. Threads that call famsync_msync during a commit share the next commit. If the call fails
   and the session continues, all changes wait for the next call.

   FAMSYNC_NOFRAME: the changed pages are too many for one commit, and nothing is committed. Later
   commits fail, too, until you discard changes. famsync_rollback discards all changes. Closing
   plain memory discards the stores to this memory.

   FAMSYNC_NOSPACE: before a commit, the library allocates all blocks of the volume's file that the
   commit will write, now or later. The disk has no room for them. Nothing is committed. Call again
   once the disk has room, or discard changes. errno is ENOSPC, EDQUOT or EFBIG.

   FAMSYNC_DEVICE: a read, a write or a sync failed, and nothing is acknowledged.

   - After a failed read or a failed allocation of blocks the session continues, and you may call
     again.
   - After a failed write or sync the session is over. The session is also over if the library had
     no memory to prepare a write or a sync. In this case errno is ENOMEM.
   - When the session is over, later calls with the handle return FAMSYNC_BROKEN, except
     famsync_close, famsync_begin and famsync_end.

   After a failed sync the library flags the volume as suspect. The suspect flag is the file
   VOLUME.suspect beside the volume's file. FAMSYNC_UNMARKED: a sync failed, and the library
   couldn't make this flag durable. So the next session might not notice the failed sync.

   After a commit is acknowledged, the library writes the commit's pages to their places. A thread
   of the library does this while no call is in progress. Later calls, at the latest famsync_close,
   write the remaining pages. The thread begins to write after 10 ms without a commit, or when half
   of the log is in use. With
   `foreground` there is no such thread. */
int famsync_msync(famsync *handle, uint64_t *mark);

/* Undoes all changes of this session since the last commit: writes, stores to plain memory, and
   lengths. Other threads may store during the call, except with FAMSYNC_TRACK_KERNEL. The call
   undoes all stores that threads made before one moment within the call. Later stores remain. If a
   new length of a file is undone, plain memory of this file grows or shrinks in place, as with
   famsync_setlength.

   The call may first write committed pages to their places. If a write or a new length waits for a
   commit, the call needs as much additional memory as a second session.

   FAMSYNC_DEVICE or FAMSYNC_UNMARKED: a read, a write or a sync failed. After a failed read the
   session continues. After a failed write or sync the session is over (see famsync_msync).

   FAMSYNC_OVERLAP: the call would change the length of open plain memory, and the option `fixed` is
   set.

   A call that fails undoes nothing, with two exceptions:

   - A write or a sync failed after all changes were undone.
   - FAMSYNC_SYSTEM: a system call on plain memory failed. If it failed while the library was
     undoing changes, some changes may be undone, others not. Then commits fail with FAMSYNC_TORN
     until a rollback succeeds. */
int famsync_rollback(famsync *handle);

/* famsync_begin begins a group, and famsync_end ends it. A commit contains all changes that the
   calling thread makes within a group, or none of them. Any number of threads can hold groups at
   the same time.

   famsync_msync, famsync_rollback and the calls that end a transaction take effect at a moment when
   no group is open. They wait for the open groups. Meanwhile famsync_begin waits until that moment
   has passed, but not for the commit's writes and syncs. Only with FAMSYNC_TRACK_KERNEL, and during
   a rollback, it waits until the end of the call. No other call waits for groups. famsync_backup
   copies only committed changes. A new length is a change like a write.

   - If a thread begins a group within its own group, both are one group. It ends with the last
     famsync_end. Such a famsync_begin never waits.
   - FAMSYNC_BUSY, from a call that would wait for groups: this thread holds a group. Nothing
     changes. FAMSYNC_BUSY, from famsync_close: a group is open, of any thread.
   - FAMSYNC_ARGUMENT, from famsync_end: this thread holds no group.
   - If a thread ends within a group, commits fail with FAMSYNC_TORN until a rollback succeeds.
   - Commits wait for groups as for a lock. To prevent deadlocks, all threads have to take groups
     of several volumes, and locks of the program, in the same order. */
int famsync_begin(famsync *handle);
int famsync_end(famsync *handle);

/* A transaction: all changes of the session up to famsync_transaction_commit become durable, or
   none. These are the changes of all threads, and the changes that waited when the transaction
   began. `*transaction` is set to the transaction's number. A session has at most one open
   transaction. While it is open, famsync_msync, famsync_rollback and famsync_transaction_begin
   fail with FAMSYNC_TRANSACTION, in any thread.

   famsync_transaction_commit works like famsync_msync, and famsync_transaction_rollback like
   famsync_rollback. If one of them succeeds, the transaction ends. If it fails, the transaction
   stays open, so no part of it is committed.

   After famsync_transaction_rollback the transaction's number may be used again:

   - famsync_transaction_commit returns FAMSYNC_OK if no change waits for a commit. Otherwise it
     fails with FAMSYNC_TORN, and commits nothing.
   - famsync_transaction_rollback undoes all changes, like famsync_rollback.

   FAMSYNC_ARGUMENT: no transaction had this number. */
int famsync_transaction_begin(famsync *handle, uint64_t *transaction);
int famsync_transaction_commit(famsync *handle, uint64_t transaction, uint64_t *mark);
int famsync_transaction_rollback(famsync *handle, uint64_t transaction);

/* Returns the number of the last acknowledged commit of this session, or 0 if there is none. */
uint64_t famsync_acknowledged(famsync *handle);

/* Returns a description of a code. */
const char *famsync_strerror(int code);

/* Returns a text about the calling thread's last failed call, for instance that one commit can have
   at most 1020 pages, and this commit has 1200. The text begins with the name of the call. Returns
   an empty string if no call of this thread failed, or if the last failed call didn't take `handle`
   or plain memory of it. A null pointer as `handle` means any call. After famsync_close has freed a
   handle, the thread may still pass this handle to famsync_error. The text is valid until the
   thread's next failed call. */
const char *famsync_error(const famsync *handle);

/* Statistics of a session. Set `size` to the size of this structure. FAMSYNC_ARGUMENT: `size` is
   too small to include the field `memory`. Later versions of the library may add fields after
   `memory`. If the structure has fields that the library doesn't know, famsync_stat sets them to 0.
   `reads`, `writes` and `syncs` count system calls since the session began, including failed calls.
   `syncs` counts neither syncs that a signal interrupted nor the first sync of famsync_open. */
struct famsync_stat {
    size_t size;
    uint64_t commits;       /* the number of the last acknowledged commit */
    uint64_t frames;        /* the most pages that one commit can have */
    uint64_t staged;        /* the number of pages that wait for a commit, including pages of plain
                               memory */
    uint64_t unwritten;     /* the number of the log's blocks in use */
    uint64_t reads;         /* reads of the volume's file */
    uint64_t writes;        /* writes to the volume's file */
    uint64_t syncs;         /* syncs of the volume's file */
    uint64_t bytes_written; /* bytes written to the volume's file */
    uint64_t memory;        /* the bytes of memory that all sessions of this process use for pages
                               and commits, besides plain memory */
};

int famsync_stat(famsync *handle, struct famsync_stat *stat);

/* What a volume is. Set `size` to the size of this structure. FAMSYNC_ARGUMENT: `size` is too small
   to include the field `readonly`. Later versions of the library may add fields after `readonly`.
   If the structure has fields that the library doesn't know, famsync_volume_info sets them to 0. */
struct famsync_volume_info {
    size_t size;
    uint64_t layout;   /* 5 or 6 */
    uint64_t blocks;   /* the number of blocks of the volume */
    uint64_t files;    /* the number of files */
    uint64_t log;      /* the number of blocks of the log */
    uint64_t log_used; /* the number of the log's blocks in use */
    uint64_t frames;   /* the most pages that one commit can have; the option `frames` can set a
                          lower limit (see famsync_frames) */
    uint64_t readonly; /* 1 if the session only reads; otherwise 0 */
};

int famsync_volume_info(famsync *handle, struct famsync_volume_info *info);

/* Makes a backup: a volume with all changes up to the last commit acknowledged before the backup
   began. Opening the backup needs no recovery. The call empties the file that `descriptor` refers
   to, and writes the backup to this file. Blocks of zeros become holes. In layout 6 the backup has a
   new random key. When the call succeeds, the backup is synced. If you created the file for the
   backup, sync its folder, too.

   Other threads may use the handle during the backup, even for famsync_msync. Until the call
   returns, the library locks the backup's file like a volume's file.

   - FAMSYNC_ARGUMENT: the backup's file is the volume's file, or isn't a regular file. Or
     `descriptor` isn't open for reading and writing, or has O_APPEND.
   - FAMSYNC_BUSY: another backup with this handle is in progress.
   - FAMSYNC_INUSE: the backup's file is already locked.
   - FAMSYNC_SYSTEM: the library couldn't write the backup's file.
   - FAMSYNC_DEVICE: the library couldn't read the volume, and the session continues. Or it couldn't
     write committed pages to their places, and the session is over.

   After a failure the backup's file is unchanged, incomplete (not a volume), or complete but
   possibly not durable. If the session continues, a failed backup doesn't affect commits. */
int famsync_backup(famsync *handle, int descriptor);

/*
 * Opens plain memory: a whole file of the volume as memory of this process. The memory is a private
 * mapping of the volume's file. By default all pages of the memory are read-only at first. The
 * first store to a page raises SIGSEGV. The library's handler of this signal notes the store, and
 * makes the page writable. The handler passes other faults to the handler that was installed
 * earlier.
 *
 * A commit copies each page that was stored to. Both the page and the copy use memory. After the
 * committed page is written to its place, the library can return this memory to the system. The
 * library does this when committed pages and their copies use more than `budget` bytes. The
 * library keeps the memory of each page whose commit is still in the log. So the memory
 * of committed pages and their copies can exceed the budget by up to twice the log's length.
 *
 * As with any mapped file, a load raises SIGBUS if the volume's file can't be read or was
 * truncated. In a forked process, pages may contain bytes that the parent committed after the fork.
 *
 * In three cases the call reads the whole file instead of mapping the volume's file:
 *
 * - the option `resident` is set;
 * - the system's pages are larger than 4,096 bytes;
 * - the system can't map the volume's file.
 *
 * In these cases loads raise no SIGBUS, `budget` has no effect, and a forked process sees no later
 * commit.
 *
 * With FAMSYNC_TRACK_SIGNALS other threads may store during a commit. A commit contains all stores
 * that threads made before one moment within famsync_msync, but no later stores. This moment is the
 * same for all threads, and for all plain memory of the handle. At this moment the library makes
 * all pages read-only again. Then the library copies the pages that were stored to. A store during
 * the copying waits until the copying ends. Stores through a pointer don't wait for the commit's
 * writes and syncs. If several stores must be committed together, make them in a group
 * (famsync_begin), or while no commit is in progress.
 *
 * For some stores the system doesn't call the library's handler:
 *
 * - A store by the kernel raises no signal. So read(2) and similar calls fail with EFAULT if they
 *   store to a read-only page.
 * - If a thread that blocks SIGSEGV stores to a read-only page, the system kills the process.
 * - If the program later installs another handler of SIGSEGV, the new handler gets the signals. The
 *   new handler should pass the signals to the library's handler. The next famsync_memory_open
 *   installs the library's handler again.
 *
 * In all three cases the program can make pages writable in advance with famsync_memory_touch.
 *
 * With FAMSYNC_TRACK_KERNEL there is no handler: the kernel tracks stores, including stores by
 * read(2) and similar calls. FAMSYNC_TRACK_KERNEL needs Linux 6.7 or later. Other threads must not
 * store during famsync_msync, famsync_rollback or famsync_setlength. A thread that stores only
 * within groups never stores during the first two calls. Another store can make a commit fail, or
 * can be lost:
 *
 * - If another thread stores while a commit copies pages, the commit repeats the copying. After
 *   four attempts famsync_msync returns FAMSYNC_BUSY, and nothing is committed.
 * - At the end of a commit the library may return the memory of committed pages to the system (see
 *   `budget`). If another thread stores to these pages at that time, the store may be lost.
 *
 * FAMSYNC_TRACKING, from famsync_open or famsync_memory_open: the system can't track stores in the
 * requested way.
 * FAMSYNC_ARGUMENT, from famsync_open: the options have both FAMSYNC_TRACK_KERNEL and `resident`.
 *
 * If the file's end is inside a page, stores to the rest of this page are never committed. The
 * addresses after the last page, up to the file's capacity, are reserved: the program must not use
 * them. FAMSYNC_ARGUMENT, from famsync_memory_open: the file is empty.
 */
int famsync_memory_open(famsync *handle, const char *file, famsync_memory **memory);

/* Opens plain memory at a given address, so that the file can contain pointers into itself. A null
   pointer means any address. The memory occupies the addresses for the file's whole capacity, one
   page before them, and one page after them. FAMSYNC_ADDRESS, in one of these cases:

   - The address isn't a multiple of the system's page size.
   - The occupied addresses begin below 65,536, or end above the highest possible address.
   - Some of these addresses are already in use. */
int famsync_memory_open_at(famsync *handle, const char *file, void *address, famsync_memory **memory);

/* famsync_memory_at returns the address of the memory. This address never changes.
   famsync_memory_length returns the length of the file in bytes. */
void *famsync_memory_at(const famsync_memory *memory);
size_t famsync_memory_length(const famsync_memory *memory);

/* Returns the number of pages that were stored to since the last commit or rollback. A page may
   count even if its bytes didn't change. */
size_t famsync_memory_dirty(const famsync_memory *memory);

/* Makes all pages of a range writable, as a store to each page would. The range has `count` bytes,
   and begins at `offset`. Until the next famsync_msync or famsync_rollback, stores to these pages
   raise no SIGSEGV, and the kernel can store to them. With FAMSYNC_TRACK_SIGNALS the pages count as
   stored to. FAMSYNC_ARGUMENT: the range isn't within the file. FAMSYNC_NOFRAME: the range has more
   pages than one commit can have. In both cases nothing changes. */
int famsync_memory_touch(famsync_memory *memory, size_t offset, size_t count);

/* Closes the memory. After the call begins, no thread may use the memory. Stores to the memory
   since the last commit are lost. If a failed famsync_msync has prepared some of these stores for a
   commit, later commits fail with FAMSYNC_TORN until a rollback succeeds. */
int famsync_memory_close(famsync_memory *memory);

#ifdef __cplusplus
}
#endif

#endif
