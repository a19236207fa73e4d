/* The three functions that the archive calls for its memory, over malloc, with a count of what
   they hand out. One of the allocations can be made to fail. docs/HOST.md tells what the
   functions owe. */
#ifndef MEMORY_H
#define MEMORY_H

#include <stddef.h>

/* What was asked for since the last call of count_anew. */
struct memory {
    size_t failing;     /* the number of the allocation that fails, from 1 on; 0 for none */
    size_t allocations; /* a block that is made longer or shorter counts as one more */
    size_t blocks;      /* handed out and not given back, */
    size_t bytes;       /* and their bytes */
    size_t most_blocks; /* the most at a time */
    size_t most_bytes;
    size_t area;        /* the bytes of an area that hands out one block behind the other,
                           each at a multiple of 16, and takes none back */
};

extern struct memory memory;

/* Begins to count, and has one allocation fail, or none. */
void count_anew(size_t failing);

#endif
