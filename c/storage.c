/* The memory of the ends (ivshm_c.h) in a static array, for programs without malloc. Blocks are
 * found first fit: an array for n ends of equal sizes serves n such ends, made and freed in any
 * order. The array has IVSHM_STORAGE bytes: by default those of one end of the largest sizes; of
 * other sizes IVSHM_END_BYTES for each end. One call at a time may use it. */
#include "ivshm_c.h"

#ifndef IVSHM_STORAGE
#define IVSHM_STORAGE IVSHM_LARGEST_END
#endif

/* 16 bytes of the array: the head of a block, or a part of its bytes. */
typedef union unit {
    struct {
        size_t units; /* of the block, with its head */
        size_t used;  /* 1: a block of an end. 0: a free one */
    } head;
    _Alignas(16) unsigned char bytes[16];
} unit;

#define UNITS ((IVSHM_STORAGE + sizeof(unit) - 1) / sizeof(unit))
static unit storage[UNITS];

/* Joins a free block with the free blocks after it. */
static void join(unit *block) {
    for (;;) {
        const unit *next = block + block->head.units;
        if (next == storage + UNITS || next->head.used) return;
        block->head.units += next->head.units;
    }
}

/* Cuts a free block to this number of units, and leaves a free block of the others after it. */
static void cut(unit *block, size_t units) {
    if (block->head.units > units) {
        block[units].head.units = block->head.units - units;
        block[units].head.used = 0;
        block->head.units = units;
    }
}

struct rattle_block rattle_alloc(size_t size, size_t align) {
    size_t units = 1 + size / sizeof(unit) + (size % sizeof(unit) != 0);
    (void)align; /* every block begins at a multiple of 16 */
    if (storage->head.units == 0) storage->head.units = UNITS;
    for (unit *block = storage; block != storage + UNITS; block += block->head.units) {
        if (block->head.used) continue;
        join(block);
        if (block->head.units < units) continue;
        cut(block, units);
        block->head.used = 1;
        return (struct rattle_block){1, block + 1};
    }
    return (struct rattle_block){0, storage};
}

void rattle_dealloc(void *at) { ((unit *)at)[-1].head.used = 0; }
