/* Plain memory at an address: pointers that are kept in a file are good in the next session. An address where there can
   be no memory is refused, and then nothing is open. */
#include "test.h"

#include <sys/mman.h>

#define PAGE 4096u
#define ROOM (16u * PAGE) /* of the file's capacity */

static struct famsync_options options = {.size = sizeof options};

struct node {
    struct node *next;
    int number;
};

/* An address with room that is far from where the system puts what has none of its own. */
static unsigned char *free_address(void)
{
    unsigned char *at = mmap(NULL, PAGE, PROT_NONE, MAP_PRIVATE | MAP_ANONYMOUS, -1, 0);
    WANT(at != MAP_FAILED && munmap(at, PAGE) == 0);
    return (uintptr_t)at > (uintptr_t)1 << 40 ? at - ((size_t)64 << 30) : at + ((size_t)16 << 30);
}

static void make(void)
{
    make_volume_of(FIRST_LAYOUT, 20, "a=20000/65536 b=8192");
}

/* A list, the first node of which is the last that was added. */
static void add_nodes(unsigned char *address, int first, int count)
{
    famsync *handle = opened_with(options);
    famsync_memory *memory;
    WANT_CODE(famsync_memory_open_at(handle, "a", address, &memory), FAMSYNC_OK);
    WANT(famsync_memory_at(memory) == address && famsync_memory_length(memory) == 20000);
    struct node **head = (struct node **)(void *)address, *nodes = (struct node *)(void *)(address + PAGE);
    for (int number = first; number < first + count; number++) {
        nodes[number] = (struct node){*head, number};
        *head = &nodes[number];
    }
    WANT_CODE(famsync_msync(handle, NULL), FAMSYNC_OK);
    WANT_CODE(famsync_memory_close(memory), FAMSYNC_OK);
    WANT_CODE(famsync_close(handle), FAMSYNC_OK);
}

static void pointers(void)
{
    unsigned char *address = free_address();
    famsync_memory *memory;
    int number = 99;
    make();
    add_nodes(address, 0, 40);
    add_nodes(address, 40, 60);
    famsync *handle = opened_with(options);
    WANT_CODE(famsync_memory_open_at(handle, "a", address, &memory), FAMSYNC_OK);
    for (struct node *node = *(struct node **)(void *)address; node; node = node->next)
        WANT(node->number == number--);
    WANT(number == -1);
    WANT_CODE(famsync_memory_close(memory), FAMSYNC_OK);
    WANT_CODE(famsync_close(handle), FAMSYNC_OK);
}

static void want_refused(famsync *handle, uintptr_t address)
{
    famsync_memory *memory = (famsync_memory *)1;
    WANT_CODE(famsync_memory_open_at(handle, "a", (void *)address, &memory), FAMSYNC_ADDRESS);
    WANT(memory == NULL);
}

/* Memory of somebody else at one page of those that are asked for. */
static void taken(famsync *handle, unsigned char *address, size_t page)
{
    unsigned char *there = address - PAGE + page * PAGE;
    WANT(mmap(there, PAGE, PROT_READ | PROT_WRITE, MAP_PRIVATE | MAP_ANONYMOUS | MAP_FIXED, -1, 0) == there);
    memset(there, 7, PAGE);
    want_refused(handle, (uintptr_t)address);
    WANT(there[0] == 7 && there[PAGE - 1] == 7 && munmap(there, PAGE) == 0);
}

static void refusals(void)
{
    unsigned char *address = free_address();
    famsync_memory *memory, *other;
    make();
    famsync *handle = opened_with(options);
    taken(handle, address, 0);
    taken(handle, address, 1);
    taken(handle, address, 9);
    taken(handle, address, 16);
    taken(handle, address, 17);
    want_refused(handle, (uintptr_t)address + 1);
    want_refused(handle, (uintptr_t)address + 2048);
    want_refused(handle, PAGE);
    want_refused(handle, 65536);
    want_refused(handle, UINTPTR_MAX - PAGE + 1);
    want_refused(handle, UINTPTR_MAX - 8 * PAGE + 1);
#ifndef __SANITIZE_THREAD__ /* which ends a process that maps there */
    want_refused(handle, (uintptr_t)1 << 62);
#endif
    WANT_CODE(famsync_memory_open_at(handle, "c", address, &memory), FAMSYNC_NOFILE);
    WANT_CODE(famsync_memory_open_at(handle, NULL, address, &memory), FAMSYNC_ARGUMENT);
    WANT_CODE(famsync_memory_open_at(handle, "a", address, NULL), FAMSYNC_ARGUMENT);
    WANT_CODE(famsync_memory_open_at(NULL, "a", address, &memory), FAMSYNC_ARGUMENT);
    WANT_CODE(famsync_memory_open_at(handle, "a", address, &memory), FAMSYNC_OK);
    WANT_CODE(famsync_memory_open_at(handle, "a", address, &other), FAMSYNC_OVERLAP);
    /* where the other file's memory is, or within the capacity of it */
    WANT_CODE(famsync_memory_open_at(handle, "b", address, &other), FAMSYNC_ADDRESS);
    WANT_CODE(famsync_memory_open_at(handle, "b", address + 12 * PAGE, &other), FAMSYNC_ADDRESS);
    WANT_CODE(famsync_memory_open_at(handle, "b", NULL, &other), FAMSYNC_OK);
    WANT(famsync_memory_at(other) != NULL);
    WANT_CODE(famsync_memory_close(other), FAMSYNC_OK);
    WANT_CODE(famsync_setlength(handle, "a", ROOM), FAMSYNC_OK);
    address[ROOM - 1] = 1;
    WANT_CODE(famsync_msync(handle, NULL), FAMSYNC_OK);
    WANT_CODE(famsync_memory_close(memory), FAMSYNC_OK);
    WANT_CODE(famsync_close(handle), FAMSYNC_OK);
}

/* Two volumes, and one address for both, one after the other. */
static void two_volumes(void)
{
    unsigned char *address = free_address();
    char moved[100];
    famsync_memory *memory[2];
    famsync *handle[2];
    make();
    snprintf(moved, sizeof moved, "%s/other.img", folder);
    WANT(rename(volume, moved) == 0);
    make();
    handle[0] = opened_with(options);
    WANT_CODE(famsync_open(moved, NULL, &handle[1]), FAMSYNC_OK);
    WANT_CODE(famsync_memory_open_at(handle[0], "a", address, &memory[0]), FAMSYNC_OK);
    WANT_CODE(famsync_memory_open_at(handle[1], "a", address, &memory[1]), FAMSYNC_ADDRESS);
    address[5] = 1;
    WANT_CODE(famsync_msync(handle[0], NULL), FAMSYNC_OK);
    WANT_CODE(famsync_memory_close(memory[0]), FAMSYNC_OK);
    WANT_CODE(famsync_memory_open_at(handle[1], "a", address, &memory[1]), FAMSYNC_OK);
    WANT(address[5] == 0);
    WANT_CODE(famsync_memory_close(memory[1]), FAMSYNC_OK);
    WANT_CODE(famsync_close(handle[0]), FAMSYNC_OK);
    WANT_CODE(famsync_close(handle[1]), FAMSYNC_OK);
}

int main(void)
{
    for (options.resident = 0; options.resident < 2; options.resident++) {
        pointers();
        refusals();
        two_volumes();
    }
    printf("clients/c: addresses: as it should be\n");
    return 0;
}
