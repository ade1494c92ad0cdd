/* A static pool in place of malloc: link this file with the program. Build with -DUNITS=.. for a
   pool of another size. One thread uses it.
   Build: cc -std=c11 program.c pool.c $(pkg-config --cflags --libs dachreup) */
#include <dachreup.h>
#include <stddef.h>
#include <string.h>

#ifndef UNITS
#define UNITS 16384
#endif

/* A block begins with the number of its units, this one included. */
static union unit {
    struct {
        size_t units;
        int is_used;
    } block;
    max_align_t aligned;
} pool[UNITS];

/* Takes the first free block that is large enough. Free blocks in a row become one. */
void *dachreup_malloc(size_t size) {
    size_t wanted = size / sizeof *pool + 2;
    if (pool->block.units == 0)
        pool->block.units = UNITS;
    for (size_t at = 0; at < UNITS; at += pool[at].block.units) {
        size_t *units = &pool[at].block.units;
        if (pool[at].block.is_used)
            continue;
        while (at + *units < UNITS && !pool[at + *units].block.is_used)
            *units += pool[at + *units].block.units;
        if (*units < wanted)
            continue;
        if (*units > wanted) {
            pool[at + wanted].block.units = *units - wanted;
            pool[at + wanted].block.is_used = 0;
        }
        *units = wanted;
        pool[at].block.is_used = 1;
        return &pool[at + 1];
    }
    return NULL;
}

void dachreup_free(void *block) {
    if (block)
        ((union unit *)block - 1)->block.is_used = 0;
}

void *dachreup_realloc(void *block, size_t size) {
    void *moved = dachreup_malloc(size);
    if (block && moved) {
        size_t before = (((union unit *)block - 1)->block.units - 1) * sizeof *pool;
        memcpy(moved, block, before < size ? before : size);
        dachreup_free(block);
    }
    return moved;
}
