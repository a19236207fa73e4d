/* The archive's memory functions, over malloc, with a count of what they hand out. */
#include "memory.h"

#include <stdalign.h>
#include <stdbool.h>
#include <stdint.h>
#include <stdlib.h>
#include <string.h>

/* A block, or word that there is none; the pointer is never null. */
struct tried {
    bool ok;
    void *block;
};

struct tried rattle_alloc(size_t size, size_t align);
struct tried rattle_realloc(void *block, size_t kept, size_t size, size_t align);
void rattle_dealloc(void *block);

/* Stands before each block, and knows its bytes. A block behind it fits every alignment. */
struct head {
    alignas(max_align_t) size_t bytes;
};

struct memory memory;

void count_anew(size_t failing)
{
    memory = (struct memory){ .failing = failing };
}

/* Counts what is handed out from now on. */
static void count_block(size_t bytes)
{
    memory.area += (bytes + 15) / 16 * 16;
    memory.bytes += bytes;
    memory.blocks += 1;
    if (memory.bytes > memory.most_bytes) {
        memory.most_bytes = memory.bytes;
    }
    if (memory.blocks > memory.most_blocks) {
        memory.most_blocks = memory.blocks;
    }
}

struct tried rattle_alloc(size_t size, size_t align)
{
    static max_align_t none;
    size_t bytes = size > 0 ? size : align;
    memory.allocations += 1;
    bool fails = memory.allocations == memory.failing;
    struct head *head = fails ? NULL : malloc(sizeof *head + bytes);
    if (head == NULL) {
        return (struct tried){ false, &none };
    }
    head->bytes = bytes;
    count_block(bytes);
    return (struct tried){ true, head + 1 };
}

/* The block always moves, so that the old place is never of use again. */
struct tried rattle_realloc(void *block, size_t kept, size_t size, size_t align)
{
    struct tried moved = rattle_alloc(size, align);
    if (moved.ok) {
        memcpy(moved.block, block, kept);
        rattle_dealloc(block);
    }
    return moved;
}

void rattle_dealloc(void *block)
{
    struct head *head = (struct head *)block - 1;
    memory.bytes -= head->bytes;
    memory.blocks -= 1;
    free(head);
}
