/* Ranges of bytes of a file, in the pages that the core reads and writes, or in plain memory of the file where that is
   open; and the lengths of files. */
#include "inside.h"

#include <string.h>

/* The bytes of a range that lie in one page. */
struct part {
    uint64_t page;
    size_t begin, count;
};

static struct part first_part(uint64_t offset, size_t count)
{
    size_t begin = offset % PAGE, room = PAGE - begin;
    return (struct part){offset / PAGE, begin, count < room ? count : room};
}

/* How many pages a range touches. */
static uint64_t pages_of(uint64_t offset, size_t count)
{
    return count == 0 ? 0 : (offset + count - 1) / PAGE - offset / PAGE + 1;
}

/* Reads a page, and reads ahead for those behind it: so many pages in all. */
static int read_page(famsync *handle, unsigned file, uint64_t page, uint64_t pages, unsigned char *bytes)
{
    for (;;) {
        uint32_t wanted = 0;
        int32_t answer = famsync_core_read(handle->core, file, page, bytes, PAGE, &wanted, &handle->core.at);
        int code = answer == FAMSYNC_CORE_WANTED ? supply(handle, wanted, pages) : answer_of(handle, answer);
        if (answer != FAMSYNC_CORE_WANTED || code != FAMSYNC_OK)
            return code;
    }
}

static int read_part(famsync *handle, unsigned file, struct part part, uint64_t pages, unsigned char *bytes)
{
    unsigned char page[PAGE];
    int code;
    if (part.count == PAGE)
        return read_page(handle, file, part.page, pages, bytes);
    code = read_page(handle, file, part.page, pages, page);
    if (code == FAMSYNC_OK)
        memcpy(bytes, page + part.begin, part.count);
    return code;
}

int read_range(famsync *handle, unsigned file, uint64_t offset, unsigned char *bytes, size_t count, size_t *done)
{
    int code = FAMSYNC_OK;
    *done = 0;
    while (*done < count) {
        struct part part = first_part(offset + *done, count - *done);
        code = read_part(handle, file, part, pages_of(offset + *done, count - *done), bytes + *done);
        if (code != FAMSYNC_OK)
            break;
        *done += part.count;
    }
    return code;
}

static int write_page(famsync *handle, unsigned file, uint64_t page, const unsigned char *bytes)
{
    widen(&handle->file[file].staged, page, page + 1);
    return answer_of(handle, famsync_core_write(handle->core, file, page, bytes, PAGE, &handle->core.at));
}

/* Whether a part is all that the file has of its page: then it isn't read before. */
static bool is_all(const famsync *handle, unsigned file, struct part part)
{
    return part.begin == 0 && (part.count == PAGE || part.page * PAGE + part.count == handle->file[file].length);
}

static int write_part(famsync *handle, unsigned file, struct part part, const unsigned char *bytes)
{
    unsigned char page[PAGE] = {0};
    int code = FAMSYNC_OK;
    if (part.count == PAGE)
        return write_page(handle, file, part.page, bytes);
    if (!is_all(handle, file, part))
        code = read_page(handle, file, part.page, 1, page);
    if (code != FAMSYNC_OK)
        return code;
    memcpy(page + part.begin, bytes, part.count);
    return write_page(handle, file, part.page, page);
}

int write_range(famsync *handle, unsigned file, uint64_t offset, const unsigned char *bytes, size_t count, size_t *done)
{
    int code = claim_pages(handle, file, offset / PAGE, pages_of(offset, count));
    *done = 0;
    while (code == FAMSYNC_OK && *done < count) {
        struct part part = first_part(offset + *done, count - *done);
        code = write_part(handle, file, part, bytes + *done);
        if (code != FAMSYNC_OK)
            break;
        *done += part.count;
    }
    return code;
}

uint64_t staged_among(famsync *handle, unsigned file, uint64_t first, uint64_t count)
{
    uint64_t found = 0;
    for (uint64_t page = first; page < first + count; page++)
        found += famsync_core_is_staged(handle->core, file, page, &handle->core.at) == 1;
    return found;
}

int explain_no_frame(const famsync *handle, const char *what, uint64_t pages)
{
    return explain(FAMSYNC_NOFRAME, "%s %llu pages; one commit can have at most %u", what, (unsigned long long)pages,
                   handle->frames);
}

static int no_such_number(const famsync *handle, unsigned file)
{
    return explain(FAMSYNC_NOFILE, "the volume has no file %u; its files are numbered from 0 to %u", file,
                   handle->files - 1);
}

int no_such_name(const char *file)
{
    return explain(FAMSYNC_NOFILE, "the volume has no file \"%.64s\"", file);
}

static int read_file(famsync *handle, unsigned file, uint64_t offset, unsigned char *bytes, size_t count, size_t *done)
{
    const famsync_memory *memory;
    uint64_t length;
    if (file >= handle->files)
        return no_such_number(handle, file);
    length = handle->file[file].length;
    if (offset >= length || count == 0)
        return FAMSYNC_OK;
    if (count > length - offset)
        count = (size_t)(length - offset);
    memory = memory_of_file(handle, file);
    if (!memory)
        return read_range(handle, file, offset, bytes, count, done);
    read_memory(memory, offset, bytes, count);
    *done = count;
    return FAMSYNC_OK;
}

static int past_end(const struct file *file, uint64_t offset, size_t count)
{
    return explain(FAMSYNC_EINVAL, "offset %llu with %zu bytes ends past the %llu bytes of \"%s\"",
                   (unsigned long long)offset, count, (unsigned long long)file->length, file->name);
}

static int write_file(famsync *handle, unsigned file, uint64_t offset, const unsigned char *bytes, size_t count,
                      size_t *done)
{
    famsync_memory *memory;
    int code;
    if (file >= handle->files)
        return no_such_number(handle, file);
    if (handle->volume.readonly)
        return FAMSYNC_READONLY;
    if (count == 0)
        return FAMSYNC_OK;
    if (offset > handle->file[file].length || count > handle->file[file].length - offset)
        return past_end(&handle->file[file], offset, count);
    code = judge_range(handle, file, offset, count);
    if (code != FAMSYNC_OK)
        return code;
    memory = memory_of_file(handle, file);
    if (!memory)
        return write_range(handle, file, offset, bytes, count, done);
    code = write_memory(memory, offset, bytes, count);
    *done = code == FAMSYNC_OK ? count : 0;
    return code;
}

/* What is wrong with the arguments of a read or a write; a null pointer if nothing is. */
static const char *judge_bytes(const void *bytes, size_t count)
{
    return count == 0 || bytes ? NULL : "`bytes` is a null pointer";
}

int famsync_read(famsync *handle, unsigned file, uint64_t offset, void *bytes, size_t count, size_t *done)
{
    size_t counted = 0;
    int code = enter_unless(handle, judge_bytes(bytes, count));
    if (code == FAMSYNC_OK)
        code = leave(handle, read_file(handle, file, offset, bytes, count, &counted));
    if (done)
        *done = counted;
    return answer(handle, __func__, code);
}

int famsync_write(famsync *handle, unsigned file, uint64_t offset, const void *bytes, size_t count, size_t *done)
{
    size_t counted = 0;
    int code = enter_unless(handle, judge_bytes(bytes, count));
    if (code == FAMSYNC_OK)
        code = leave(handle, write_file(handle, file, offset, bytes, count, &counted));
    if (done)
        *done = counted;
    return answer(handle, __func__, code);
}

/* Asks for another length of a file, as often as a block is wanted for it. */
static int ask_length(famsync *handle, unsigned file, uint64_t length)
{
    for (;;) {
        uint32_t wanted = 0;
        int32_t answer = famsync_core_set_length(handle->core, file, length, &wanted, &handle->core.at);
        int code = answer == FAMSYNC_CORE_WANTED ? supply(handle, wanted, 1) : answer_of(handle, answer);
        if (answer != FAMSYNC_CORE_WANTED || code != FAMSYNC_OK)
            return code;
    }
}

/* Explains why the core refused a length. */
static int refused_length(famsync *handle, const struct file *file, uint64_t length, int code)
{
    uint64_t pages = length / PAGE + (length % PAGE != 0) - file->length / PAGE;
    if (code == FAMSYNC_EINVAL && length > file->capacity)
        return explain(code, "the length %llu exceeds the capacity of \"%s\", %llu", (unsigned long long)length,
                       file->name, (unsigned long long)file->capacity);
    if (code != FAMSYNC_NOFRAME || length <= file->length)
        return code;
    return explain(code, "%llu pages for \"%s\" and %lld waiting pages; one commit can have at most %u",
                   (unsigned long long)pages, file->name,
                   (long long)famsync_core_staged(handle->core, &handle->core.at), handle->frames);
}

/* Claims the pages of a file that is to become longer, unless they are more than it or a commit can have. */
static int claim_growth(famsync *handle, unsigned number, uint64_t before, uint64_t length)
{
    uint64_t first = before / PAGE, end = length / PAGE + (length % PAGE != 0);
    if (end > handle->file[number].pages || end <= first || end - first > (uint64_t)handle->frames + 1)
        return FAMSYNC_OK;
    return claim_pages(handle, number, first, end - first);
}

/* Of a file that becomes longer the core has the page in which it ended, and those behind it. */
int set_length(famsync *handle, unsigned number, uint64_t length)
{
    struct file *file = &handle->file[number];
    uint64_t before = file->length;
    int code = length > before ? claim_growth(handle, number, before, length) : FAMSYNC_OK;
    if (code == FAMSYNC_OK)
        code = ask_length(handle, number, length);
    if (code != FAMSYNC_OK)
        return refused_length(handle, file, length, code);
    if (length == before)
        return code;
    if (length > before)
        widen(&file->staged, before / PAGE, (length + PAGE - 1) / PAGE);
    atomic_store(&file->length, length);
    handle->resized = true;
    return FAMSYNC_OK;
}

static int set_length_of(famsync *handle, const char *file, uint64_t length)
{
    unsigned number = number_of(handle, file);
    famsync_memory *memory;
    if (number == handle->files)
        return no_such_name(file);
    if (handle->volume.readonly)
        return FAMSYNC_READONLY;
    memory = memory_of_file(handle, number);
    if (memory && handle->fixed)
        return memory_is_open(file);
    return memory ? resize_memory(memory, length) : set_length(handle, number, length);
}

int famsync_setlength(famsync *handle, const char *file, uint64_t length)
{
    int code = enter_unless(handle, file ? NULL : "`file` is a null pointer");
    if (code == FAMSYNC_OK)
        code = leave(handle, set_length_of(handle, file, length));
    return answer(handle, __func__, code);
}
