// The library's memory from one static array: a program that includes this needs no heap. Its definitions replace the
// three functions of the archive that call malloc, realloc and free. Blocks have sizes of 2^k bytes, and a freed block
// serves the next request of its size. One thread at a time may allocate.
#ifndef STATIC_MEMORY_H
#define STATIC_MEMORY_H

#include "recovery_ffi.h"
#include <string.h>

#ifndef STATIC_MEMORY
#define STATIC_MEMORY (64 * 1024)
#endif

enum { MEMORY_PAGE = 4096, BLOCK_LEAST = 5, BLOCK_MOST = 40 };

// The head of a block. What follows it is aligned to 16 bytes.
union memory_block {
    struct {
        union memory_block *next;
        size_t size_log;
    } is;
    uint8_t bytes[16];
};

static uint8_t memory[STATIC_MEMORY] __attribute__((aligned(MEMORY_PAGE)));
static size_t memory_used;
static union memory_block *memory_free[BLOCK_MOST];

struct rattle_tried rattle_alloc(size_t size, size_t align) {
    struct rattle_tried tried = {false, memory};
    size_t log = BLOCK_LEAST;
    (void)align;
    while (log < BLOCK_MOST && ((size_t)1 << log) - sizeof(union memory_block) < size) {
        log++;
    }
    union memory_block *block = log < BLOCK_MOST ? memory_free[log] : NULL;
    if (block) {
        memory_free[log] = block->is.next;
    } else if (log < BLOCK_MOST && (size_t)1 << log <= sizeof memory - memory_used) {
        block = (union memory_block *)(void *)(memory + memory_used);
        memory_used += (size_t)1 << log;
        block->is.size_log = log;
    } else {
        return tried;
    }
    tried.ok = true;
    tried.p = block + 1;
    return tried;
}

void rattle_dealloc(void *old) {
    union memory_block *block = (union memory_block *)old - 1;
    block->is.next = memory_free[block->is.size_log];
    memory_free[block->is.size_log] = block;
}

struct rattle_tried rattle_realloc(void *old, size_t kept, size_t size, size_t align) {
    struct rattle_tried tried = rattle_alloc(size, align);
    if (tried.ok) {
        memcpy(tried.p, old, kept < size ? kept : size);
        rattle_dealloc(old);
    }
    return tried;
}

#endif
