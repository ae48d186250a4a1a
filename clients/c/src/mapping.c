/* The address space of plain memory, and what it begins with: a private mapping of the file's home blocks, or anonymous
   memory into which the file is read. It is reserved for the file's capacity. */
#include "memory.h"

#include <errno.h>
#include <string.h>
#include <sys/mman.h>

#ifndef MAP_FIXED_NOREPLACE
#define MAP_FIXED_NOREPLACE 0x100000
#endif

/* Below this address the system has no memory for programs. */
#define LOWEST 65536u

void *anonymous(size_t room)
{
    void *at = mmap(NULL, room, PROT_READ | PROT_WRITE, MAP_PRIVATE | MAP_ANONYMOUS | MAP_NORESERVE, -1, 0);
    return at == MAP_FAILED ? NULL : at;
}

static const struct file *file_of(const famsync_memory *memory)
{
    return &memory->handle->file[memory->file];
}

/* Where a page of the file lies in the volume's file. */
static off_t place_of(const famsync_memory *memory, uint64_t page)
{
    return (off_t)(file_of(memory)->home + page) * PAGE;
}

static size_t pages_for(const famsync_memory *memory, size_t length)
{
    return (length + memory->grain - 1) / memory->grain;
}

/* The bytes of what is noted of the pages: `since`, `dirty` and `taken`. */
static size_t room_of_notes(const famsync_memory *memory)
{
    return memory->most * (sizeof *memory->since + 2);
}

/* Room for what is noted of the pages, and for copies of them. A session that only reads notes nothing. */
static bool take_room_for_notes(famsync_memory *memory)
{
    if (memory->handle->volume.readonly)
        return true;
    memory->since = anonymous(room_of_notes(memory));
    memory->copy = anonymous(memory->room);
    if (!memory->since || !memory->copy)
        return false;
    if (memory->home) /* only pages that are kept are to have memory */
        (void)madvise(memory->copy, memory->room, MADV_NOHUGEPAGE);
    memory->dirty = (unsigned char *)(memory->since + memory->most);
    memory->taken = memory->dirty + memory->most;
    return true;
}

/* Whether there is address space for so many bytes, wherever. */
static bool has_space(size_t room)
{
    void *at = mmap(NULL, room, PROT_NONE, MAP_PRIVATE | MAP_ANONYMOUS | MAP_NORESERVE, -1, 0);
    return at != MAP_FAILED && munmap(at, room) == 0;
}

/* Whether the system has no mappings of such a file. */
static bool is_unmappable(void)
{
    return errno == ENODEV || errno == EACCES;
}

/* Maps the pages of the file, and one before and one behind, which nobody may use: what is stored past the end is a
   fault. The one before the file's is a block of the volume, too. */
static int map_pages(famsync_memory *memory, void *address, bool mapped)
{
    size_t room = memory->room + 2 * memory->grain;
    unsigned char *wanted = address ? (unsigned char *)address - memory->grain : NULL;
    int flags = MAP_PRIVATE | MAP_NORESERVE | (mapped ? 0 : MAP_ANONYMOUS) | (address ? MAP_FIXED_NOREPLACE : 0);
    unsigned char *at = mmap(wanted, room, PROT_READ | PROT_WRITE, flags, mapped ? memory->handle->volume.unlocked : -1,
                             mapped ? place_of(memory, 0) - PAGE : 0);
    if (at != MAP_FAILED && (!wanted || at == wanted)) {
        memory->at = at + memory->grain;
        return FAMSYNC_OK;
    }
    if (at != MAP_FAILED) /* the system doesn't know of the flag */
        munmap(at, room);
    return wanted && has_space(room) ? FAMSYNC_ADDRESS : FAMSYNC_NOMEMORY;
}

/* Maps the home blocks as they are. */
static int map_home(famsync_memory *memory)
{
    void *home = mmap(NULL, memory->room, PROT_READ, MAP_SHARED, memory->handle->volume.unlocked, place_of(memory, 0));
    if (home == MAP_FAILED)
        return FAMSYNC_NOMEMORY;
    memory->home = home;
    return FAMSYNC_OK;
}

static void unmap_pages(famsync_memory *memory)
{
    if (memory->at)
        munmap(memory->at - memory->grain, memory->room + 2 * memory->grain);
    memory->at = NULL;
}

/* Maps the file, or anonymous memory if it is to be read in, or has to be. */
static int map_either(famsync_memory *memory, void *address)
{
    int code;
    if (memory->handle->is_tracked && memory->grain != PAGE)
        return FAMSYNC_TRACKING;
    if (memory->handle->resident || memory->grain != PAGE)
        return map_pages(memory, address, false);
    code = map_pages(memory, address, true);
    if (code == FAMSYNC_OK)
        code = map_home(memory);
    if (code == FAMSYNC_OK || !is_unmappable())
        return code;
    if (memory->handle->is_tracked)
        return FAMSYNC_TRACKING;
    unmap_pages(memory);
    return map_pages(memory, address, false);
}

/* Whether some bytes are zeros. */
static bool is_zeros(const unsigned char *bytes, size_t count)
{
    return count == 0 || (bytes[0] == 0 && memcmp(bytes, bytes + 1, count - 1) == 0);
}

/* The bytes of the last page that lie past the file's end. */
static size_t count_past_end(const famsync_memory *memory)
{
    return memory->pages * memory->grain - memory->length;
}

bool is_end_clear(const famsync_memory *memory)
{
    return is_zeros(memory->at + memory->length, count_past_end(memory));
}

void clear_end(famsync_memory *memory)
{
    memset(memory->at + memory->length, 0, count_past_end(memory));
}

/* Pages that wait for a commit in the core. */
static int fill_staged(famsync_memory *memory)
{
    famsync *handle = memory->handle;
    struct span staged = file_of(memory)->staged;
    int code = FAMSYNC_OK;
    for (size_t page = staged.begin; page < staged.end && page < memory->pages && code == FAMSYNC_OK; page++) {
        size_t at = page * PAGE, done;
        if (staged_among(handle, memory->file, page, 1) == 0)
            continue;
        code = read_range(handle, memory->file, at, memory->at + at, bytes_in(memory, page), &done);
        memcpy(memory->copy + at, memory->at + at, PAGE);
        keep(memory, page, page + 1);
    }
    return code;
}

/* Reads a block of the file, so that an error of the disk is an error of the call. */
static int try_page(const famsync_memory *memory, size_t page)
{
    unsigned char block[PAGE];
    return read_blocks(memory->handle, (uint32_t)(file_of(memory)->home + page), 1, block);
}

/* The home blocks have what was committed once that is written out. A page is stored to while all of them are one
   mapping: of pages that are opened apart later the mappings become one again by that. */
static int begin_mapped(famsync_memory *memory)
{
    volatile unsigned char *first = memory->at;
    int code = write_all_out(memory->handle);
    if (code == FAMSYNC_OK)
        code = try_page(memory, 0);
    if (code == FAMSYNC_OK)
        code = try_page(memory, memory->pages - 1);
    if (code != FAMSYNC_OK)
        return code;
    *first = *first;
    (void)madvise(memory->at, memory->grain, MADV_DONTNEED);
    if (!is_end_clear(memory))
        clear_end(memory);
    return fill_staged(memory);
}

/* Reads the whole file. */
static int begin_resident(famsync_memory *memory)
{
    size_t done;
    int code = read_range(memory->handle, memory->file, 0, memory->at, memory->length, &done);
    if (code == FAMSYNC_OK && memory->copy)
        memcpy(memory->copy, memory->at, memory->pages * memory->grain);
    return code;
}

/* What the pages of the file may be used for before they are opened. */
static int protection(const famsync_memory *memory)
{
    return memory->handle->is_tracked ? PROT_READ | PROT_WRITE : PROT_READ;
}

/* Closes all pages, and those past the end for loads, too. Pages that the kernel tracks stay open. */
static int close_all(famsync_memory *memory)
{
    bool closed = mprotect(memory->at - memory->grain, memory->room + 2 * memory->grain, PROT_NONE) == 0 &&
                  mprotect(memory->at, memory->pages * memory->grain, protection(memory)) == 0;
    if (!closed)
        return FAMSYNC_SYSTEM;
    return memory->handle->is_tracked ? track(memory) : FAMSYNC_OK;
}

/* The address that a program asks for is that of a page, and leaves room for the one before. */
static bool is_possible(const famsync_memory *memory, const void *address)
{
    uintptr_t at = (uintptr_t)address;
    return at % memory->grain == 0 && at >= LOWEST + memory->grain && at + memory->room + memory->grain > at;
}

/* The address is taken first: what the system places lies elsewhere then. */
int map_memory(famsync_memory *memory, void *address)
{
    int code = address && !is_possible(memory, address) ? FAMSYNC_ADDRESS : map_either(memory, address);
    if (code == FAMSYNC_OK && !take_room_for_notes(memory))
        code = FAMSYNC_NOMEMORY;
    if (code == FAMSYNC_OK)
        code = memory->home ? begin_mapped(memory) : begin_resident(memory);
    return code == FAMSYNC_OK ? close_all(memory) : code;
}

void unmap_memory(famsync_memory *memory)
{
    int error = errno;
    unmap_pages(memory);
    if (memory->home)
        munmap((void *)(uintptr_t)memory->home, memory->room);
    if (memory->copy)
        munmap(memory->copy, memory->room);
    if (memory->since)
        munmap(memory->since, room_of_notes(memory));
    errno = error;
}

/* Makes pages past the end zeros, which can be loaded; if there are any from `first` on. */
static bool add_pages(famsync_memory *memory, size_t first, size_t end)
{
    unsigned char *at = memory->at + first * memory->grain;
    size_t count = (end - first) * memory->grain;
    if (first >= end)
        return true;
    if (mprotect(at, count, PROT_READ | PROT_WRITE) != 0)
        return false;
    memset(at, 0, count);
    return mprotect(at, count, protection(memory)) == 0 &&
           (!memory->handle->is_tracked || ignore_stores(memory, first, end) == FAMSYNC_OK);
}

/* Nobody may use these pages, which lie past the end, any more. If the system refuses that, a store to them is lost. */
static void remove_pages(famsync_memory *memory, size_t first, size_t end)
{
    size_t at = first * memory->grain, count = (end - first) * memory->grain;
    int error = errno;
    if (first >= end)
        return;
    (void)mprotect(memory->at + at, count, PROT_NONE);
    (void)madvise(memory->at + at, count, MADV_DONTNEED);
    (void)madvise(memory->copy + at, count, MADV_DONTNEED);
    errno = error;
}

/* Nothing is noted of pages past the end any more. */
static void forget_notes(famsync_memory *memory, size_t end)
{
    if (end >= memory->pages)
        return;
    note_pages(memory, end, memory->pages, CLOSED);
    keep_no_more(memory, end, memory->pages);
    if (memory->open.end > end)
        memory->open.end = end;
    if (memory->open.begin >= memory->open.end)
        memory->open = (struct span){0, 0};
}

/* Sets the bytes of a page to zeros from an offset on, if that lies within a page. Where the kernel tracks stores, it
   notes those that were made before, and not this one. */
static void clear_rest(famsync_memory *memory, size_t from)
{
    size_t page = from / memory->grain, rest = pages_for(memory, from) * memory->grain - from;
    bool ignores = rest > 0 && memory->handle->is_tracked && collect_among(memory, page, page + 1) == FAMSYNC_OK;
    memset(memory->at + from, 0, rest);
    if (ignores)
        (void)ignore_stores(memory, page, page + 1);
}

/* The file has a length from now on. Its last page has zeros from an offset on, if that lies within a page. */
static void set_end(famsync_memory *memory, size_t from, size_t length)
{
    size_t pages = pages_for(memory, length);
    clear_rest(memory, from);
    forget_notes(memory, pages);
    memory->length = length;
    if (pages > memory->pages)
        keep(memory, memory->pages, pages);
    memory->pages = pages;
}

int clear_closed_end(famsync_memory *memory)
{
    size_t last = memory->pages - 1;
    if (is_end_clear(memory) || (!memory->handle->is_tracked && !open_unstored(memory, last)))
        return FAMSYNC_OK;
    clear_end(memory);
    return memory->handle->is_tracked ? ignore_stores(memory, last, last + 1) : FAMSYNC_OK;
}

/* Behind the process's own pages, which are given back, are the home blocks. What is noted becomes zeros. */
static int begin_home_again(famsync_memory *memory, size_t pages)
{
    if (mprotect(memory->at, pages * memory->grain, protection(memory)) != 0 ||
        madvise(memory->at, memory->room, MADV_DONTNEED) != 0 ||
        madvise(memory->since, room_of_notes(memory), MADV_DONTNEED) != 0)
        return FAMSYNC_SYSTEM;
    (void)madvise(memory->copy, memory->room, MADV_DONTNEED);
    memory->keeps = (struct span){0, 0};
    memory->kept = 0;
    return FAMSYNC_OK;
}

/* Puts another memory in its place, `fresh` or the copy, and `spare` in that of the copy. */
static int replace_memory(famsync_memory *memory, size_t pages)
{
    unsigned char **from = memory->fresh ? &memory->fresh : &memory->copy;
    size_t count = pages * memory->grain;
    if (count > 0 && (mprotect(*from, count, PROT_READ) != 0 ||
                      mremap(*from, count, count, MREMAP_MAYMOVE | MREMAP_FIXED, memory->at) == MAP_FAILED))
        return FAMSYNC_SYSTEM;
    if (count < memory->room)
        munmap(*from + count, memory->room - count);
    if (memory->fresh)
        munmap(memory->copy, memory->room);
    memory->copy = memory->spare;
    memory->spare = memory->fresh = NULL;
    memset(memory->dirty + memory->open.begin, CLOSED, memory->open.end - memory->open.begin);
    return FAMSYNC_OK;
}

int begin_memory_again(famsync_memory *memory, size_t length)
{
    size_t pages = pages_for(memory, length);
    int code = memory->home ? begin_home_again(memory, pages) : replace_memory(memory, pages);
    if (code != FAMSYNC_OK)
        return code;
    remove_pages(memory, pages, memory->pages);
    memory->open = (struct span){0, 0};
    memory->noted = 0;
    memory->length = length;
    memory->pages = pages;
    atomic_store(&memory->handle->file[memory->file].length, length);
    if (memory->home)
        code = clear_closed_end(memory);
    /* the kernel doesn't track pages that lay past the end: it would count a load as a store */
    return code == FAMSYNC_OK && memory->handle->is_tracked ? ignore_stores(memory, 0, pages) : code;
}

/* Opens the page of the end from which on bytes become zeros, if that lies within one. */
static bool open_end(famsync_memory *memory, size_t from)
{
    sigset_t blocked;
    bool opened;
    if (from % memory->grain == 0 || memory->handle->is_tracked)
        return true;
    lock_pages(memory->handle, &blocked);
    opened = open_unstored(memory, from / memory->grain);
    unlock_pages(memory->handle, &blocked);
    return opened;
}

/* Sets a length that the memory has room for. What may fail comes before the core is asked. */
static int resize(famsync_memory *memory, size_t length)
{
    size_t before = memory->length, from = length < before ? length : before;
    size_t old = memory->pages, pages = pages_for(memory, length);
    sigset_t blocked;
    int code = open_end(memory, from) && add_pages(memory, old, pages) ? FAMSYNC_OK : FAMSYNC_SYSTEM;
    if (code == FAMSYNC_OK)
        code = set_length(memory->handle, memory->file, length);
    if (code == FAMSYNC_OK) {
        lock_pages(memory->handle, &blocked);
        set_end(memory, from, length);
        unlock_pages(memory->handle, &blocked);
    }
    if (code == FAMSYNC_OK)
        remove_pages(memory, pages, old);
    else
        remove_pages(memory, old, pages);
    return code;
}

int resize_memory(famsync_memory *memory, uint64_t length)
{
    if (length > memory->room)
        return set_length(memory->handle, memory->file, length); /* which refuses it */
    return resize(memory, (size_t)length);
}
