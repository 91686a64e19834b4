/* Memory by blocks. They lie one behind the other from HEAP_BEGIN on, and the last one, which is free, is made
   longer by pages that are mapped when they are wanted.

   Before each block stands a word: its size, a multiple of 16, which counts the word itself, and in the low bits
   whether it is in use and whether the one before it is. A free block has the links of its list behind that word,
   and its size once more in its last word, where the block behind finds it. Two free blocks never lie side by side:
   who is freed is joined with its neighbours. So what is handed out begins 16 bytes behind the one before, or a
   multiple of that. */
#include <errno.h>
#include <stdint.h>
#include <stdio.h>
#include <stdlib.h>
#include <string.h>

#include "system.h"

#define GRAIN 16u
#define IN_USE 1u
#define BEFORE_IN_USE 2u
#define SIZE(block) ((block)->word & ~(GRAIN - 1))
#define BEHIND(block) ((struct block *)((char *)(block) + SIZE(block)))
#define LARGEST (HEAP_END - HEAP_BEGIN - PAGE)

struct block {
    uint32_t word;
    struct block *next, *previous; /* of a free one */
};

/* Lists of free blocks, by their sizes: one for each of 16 to 496 bytes, and one for each power of two from 512 on.
   A bit says that a list is not empty. */
enum { SMALL_LISTS = 32, LISTS = SMALL_LISTS + 20, LIST_WORDS = 2 };

static struct block *lists[LISTS];
static uint32_t not_empty[LIST_WORDS];

/* the last block, which is free and in no list; and the address up to which pages are mapped */
static struct block *last;
static unsigned mapped = HEAP_BEGIN;

static unsigned list_of(unsigned size)
{
    if (size < SMALL_LISTS * GRAIN)
        return size / GRAIN;
    return SMALL_LISTS + 31 - __builtin_clz(size) - 9;
}

static void put_in_list(struct block *block)
{
    unsigned list = list_of(SIZE(block));

    block->next = lists[list];
    block->previous = NULL;
    if (block->next)
        block->next->previous = block;
    lists[list] = block;
    not_empty[list / 32] |= 1u << list % 32;
}

static void take_from_list(struct block *block)
{
    unsigned list = list_of(SIZE(block));

    if (block->next)
        block->next->previous = block->previous;
    if (block->previous)
        block->previous->next = block->next;
    else if (!(lists[list] = block->next))
        not_empty[list / 32] &= ~(1u << list % 32);
}

/* Makes a free block of so many bytes, says so in its last word and in the one behind, and puts it in its list. */
static void set_free(struct block *block, unsigned size)
{
    block->word = size | BEFORE_IN_USE;
    BEHIND(block)->word &= ~BEFORE_IN_USE;
    ((uint32_t *)BEHIND(block))[-1] = size;
    put_in_list(block);
}

/* The first list from this one on that is not empty, or LISTS. */
static unsigned next_list(unsigned list)
{
    for (unsigned k = list / 32; k < LIST_WORDS; k++) {
        uint32_t bits = not_empty[k];
        if (k == list / 32)
            bits &= -(1u << list % 32);
        if (bits)
            return 32 * k + __builtin_ctz(bits);
    }
    return LISTS;
}

/* A free block of at least so many bytes, taken from its list. In the list of such blocks only some may be long enough,
   and in those behind it all are. */
static struct block *find(unsigned size)
{
    unsigned list = list_of(size);

    for (struct block *block = lists[list]; block; block = block->next) {
        if (SIZE(block) >= size) {
            take_from_list(block);
            return block;
        }
    }
    list = next_list(list + 1);
    if (list == LISTS)
        return NULL;
    struct block *block = lists[list];
    take_from_list(block);
    return block;
}

/* The last block begins where what is handed out lies at a multiple of GRAIN. */
static bool begin(void)
{
    if (!port_map(mapped))
        return false;
    last = (struct block *)(mapped + GRAIN - sizeof last->word);
    last->word = BEFORE_IN_USE;
    mapped += PAGE;
    return true;
}

/* Makes the last block so long that `size` bytes and the word of a block behind them are in it. Where there are not
   so many pages, those that came are given back. */
static bool lengthen(unsigned size)
{
    if (!last && !begin())
        return false;

    unsigned had = mapped;
    while ((uintptr_t)last + size + sizeof last->word > mapped) {
        if (mapped == HEAP_END || !port_map(mapped)) {
            while (mapped > had)
                port_unmap(mapped -= PAGE);
            return false;
        }
        mapped += PAGE;
    }
    return true;
}

static struct block *take_from_last(unsigned size)
{
    if (!lengthen(size))
        return NULL;

    struct block *block = last;
    last = (struct block *)((char *)block + size);
    last->word = BEFORE_IN_USE;
    block->word = size | BEFORE_IN_USE | IN_USE;
    return block;
}

/* Gives back what a block in use has behind its first bytes, where that is enough for a block. */
static void cut(struct block *block, unsigned size)
{
    unsigned rest = SIZE(block) - size;
    struct block *behind = BEHIND(block);

    if (rest == 0)
        return;
    block->word -= rest;

    struct block *cut_off = BEHIND(block);
    if (behind == last) {
        last = cut_off;
        last->word = BEFORE_IN_USE;
        return;
    }
    if (!(behind->word & IN_USE)) {
        take_from_list(behind);
        rest += SIZE(behind);
    }
    set_free(cut_off, rest);
}

/* the bytes of a block that has room for so many; 0 where there are none such */
static unsigned size_for(size_t size)
{
    return size > LARGEST ? 0 : (size + sizeof(uint32_t) + GRAIN - 1) & -GRAIN;
}

static void *refuse(void)
{
    errno = ENOMEM;
    return NULL;
}

void *malloc(size_t wanted)
{
    unsigned size = size_for(wanted);
    if (size == 0)
        return refuse();

    struct block *block = find(size);
    if (block) {
        block->word |= IN_USE;
        BEHIND(block)->word |= BEFORE_IN_USE;
        cut(block, size);
    } else if (!(block = take_from_last(size))) {
        return refuse();
    }
    return &block->next;
}

static struct block *block_of(void *memory, const char *what)
{
    struct block *block = (struct block *)((char *)memory - sizeof(uint32_t));

    if ((uintptr_t)memory % GRAIN != 0 || (uintptr_t)memory < HEAP_BEGIN || block >= last || !(block->word & IN_USE)) {
        fprintf(stderr, "%s: %p is no block in use\n", what, memory);
        abort();
    }
    return block;
}

void free(void *memory)
{
    if (!memory)
        return;

    struct block *block = block_of(memory, "free"), *behind = BEHIND(block);
    unsigned size = SIZE(block);

    if (!(block->word & BEFORE_IN_USE)) {
        unsigned before = ((uint32_t *)block)[-1];
        block->word &= ~IN_USE;
        block = (struct block *)((char *)block - before);
        take_from_list(block);
        size += before;
    }
    if (behind == last) {
        last = block;
        last->word = BEFORE_IN_USE;
        return;
    }
    if (!(behind->word & IN_USE)) {
        take_from_list(behind);
        size += SIZE(behind);
    }
    set_free(block, size);
}

/* Makes a block longer in its place, where there is room behind it. */
static bool extend(struct block *block, unsigned size)
{
    struct block *behind = BEHIND(block);
    unsigned more = size - SIZE(block);

    if (behind == last) {
        if (!lengthen(more))
            return false;
        block->word += more;
        last = BEHIND(block);
        last->word = BEFORE_IN_USE;
        return true;
    }
    if ((behind->word & IN_USE) || SIZE(behind) < more)
        return false;
    take_from_list(behind);
    block->word += SIZE(behind);
    BEHIND(block)->word |= BEFORE_IN_USE;
    cut(block, size);
    return true;
}

void *realloc(void *memory, size_t wanted)
{
    if (!memory)
        return malloc(wanted);

    struct block *block = block_of(memory, "realloc");
    unsigned size = size_for(wanted);
    if (size == 0)
        return refuse();
    if (size <= SIZE(block)) {
        cut(block, size);
        return memory;
    }
    if (extend(block, size))
        return memory;

    void *other = malloc(wanted);
    if (other) {
        memcpy(other, memory, SIZE(block) - sizeof(uint32_t));
        free(memory);
    }
    return other;
}

void *calloc(size_t count, size_t size)
{
    size_t all;

    if (__builtin_mul_overflow(count, size, &all))
        return refuse();

    void *memory = malloc(all);
    return memory ? memset(memory, 0, all) : NULL;
}

/* What lies before the aligned part becomes a block of its own, and is given back. */
void *aligned_alloc(size_t alignment, size_t wanted)
{
    if (alignment <= GRAIN)
        return malloc(wanted);
    if ((alignment & (alignment - 1)) != 0 || alignment > LARGEST || wanted > LARGEST - alignment)
        return refuse();

    char *memory = malloc(wanted + alignment);
    if (!memory)
        return NULL;
    unsigned before = -(uintptr_t)memory & (alignment - 1);
    if (before > 0) {
        struct block *block = block_of(memory, "aligned_alloc");
        struct block *aligned = (struct block *)((char *)block + before);
        aligned->word = (SIZE(block) - before) | BEFORE_IN_USE | IN_USE;
        block->word -= SIZE(block) - before;
        free(memory);
        memory += before;
    }
    cut(block_of(memory, "aligned_alloc"), size_for(wanted));
    return memory;
}
