#define _DEFAULT_SOURCE
#include "lent.h"

#include <stdlib.h>
#include <string.h>
#include <sys/mman.h>
#include <unistd.h>

#include "fail.h"
#include "sums.h"

const char *const names[ALL] = {
    "numbers", "chars", "attrs", "words", "flags", "unshifted", "shifted", "groups", "file", "out", "cells", "phrases",
    "board"
};

struct lent lent[ALL];
enum mode mode;

size_t number_size(int which)
{
    return which == PHRASES ? sizeof(uint32_t) : which == WORDS || which == CELLS ? sizeof(uint16_t) : 1;
}

size_t numbers_in_element(int which)
{
    return which == PHRASES ? sizeof(feldrime_phrase) / sizeof(uint32_t) : 1;
}

size_t element_size(int which)
{
    return number_size(which) * numbers_in_element(which);
}

/* Aligned as the numbers have to be, and no better: odd where they are bytes. */
static size_t guard_size(int which)
{
    return which == BOARD ? 64 : 60 + number_size(which) % sizeof(uint32_t);
}

static uint8_t guard_byte(size_t place)
{
    return (uint8_t)(0xC5 + 7 * place);
}

void forget(int which)
{
    free(lent[which].copy);
    lent[which].copy = NULL;
}

void release(int which)
{
    struct lent *one = &lent[which];

    forget(which);
    if (one->block != NULL && mode == EDGE)
        munmap(one->block, one->block_size);
    else
        free(one->block);
    *one = (struct lent){ 0 };
}

/* The buffer's end is the first byte of a page that is taken away. */
static void allocate_at_edge(struct lent *one)
{
    size_t page = (size_t)sysconf(_SC_PAGESIZE);
    size_t pages = (one->bytes + page - 1) / page * page;

    one->block_size = pages + page;
    one->block = mmap(NULL, one->block_size, PROT_READ | PROT_WRITE, MAP_PRIVATE | MAP_ANONYMOUS, -1, 0);
    if (one->block == MAP_FAILED || mprotect(one->block + pages, page, PROT_NONE) != 0)
        fail("no memory");
    one->start = one->block + pages - one->bytes;
}

void allocate(int which, size_t bytes)
{
    struct lent *one = &lent[which];
    size_t guard = mode == GUARDED ? guard_size(which) : 0;

    release(which);
    one->bytes = bytes;
    if (mode == EDGE) {
        allocate_at_edge(one);
        return;
    }
    one->block_size = bytes + 2 * guard;
    one->block = malloc(one->block_size);
    if (one->block == NULL)
        fail("no memory");
    for (size_t i = 0; i < one->block_size; i++)
        one->block[i] = guard_byte(i);
    one->start = one->block + guard;
}

bool guards_stand(int which)
{
    const struct lent *one = &lent[which];
    size_t guard = guard_size(which);

    if (mode != GUARDED || one->block == NULL)
        return true;
    for (size_t i = 0; i < guard; i++) {
        size_t after = guard + one->bytes + i;
        if (one->block[i] != guard_byte(i) || one->block[after] != guard_byte(after))
            return false;
    }
    return true;
}

uint32_t number_at(int which, size_t place)
{
    const uint8_t *start = lent[which].start;

    switch (number_size(which)) {
    case sizeof(uint32_t):
        return ((const uint32_t *)(const void *)start)[place];
    case sizeof(uint16_t):
        return ((const uint16_t *)(const void *)start)[place];
    default:
        return start[place];
    }
}

void set_number(int which, size_t place, uint32_t value)
{
    uint8_t *start = lent[which].start;

    switch (number_size(which)) {
    case sizeof(uint32_t):
        ((uint32_t *)(void *)start)[place] = value;
        break;
    case sizeof(uint16_t):
        ((uint16_t *)(void *)start)[place] = (uint16_t)value;
        break;
    default:
        start[place] = (uint8_t)value;
    }
}

size_t count_of(int which)
{
    return lent[which].bytes / element_size(which);
}

size_t all_numbers(int which)
{
    return lent[which].bytes / number_size(which);
}

uint64_t sum_of(int which)
{
    struct lent *one = &lent[which];

    if (one->bytes == 0)
        return sum_start;
    if (one->copy != NULL && memcmp(one->copy, one->start, one->bytes) == 0)
        return one->sum;
    if (one->copy == NULL && (one->copy = malloc(one->bytes)) == NULL)
        fail("no memory");
    memcpy(one->copy, one->start, one->bytes);
    one->sum = sum_start;
    for (size_t i = 0; i < all_numbers(which); i++)
        one->sum = add(one->sum, number_at(which, i));
    return one->sum;
}

static uint32_t generator_next(uint32_t x)
{
    x ^= x << 13;
    x ^= x >> 17;
    x ^= x << 5;
    return x;
}

void fill(int which, size_t count, uint32_t seed)
{
    size_t shift = 32 - 8 * number_size(which);
    uint32_t x = seed;

    allocate(which, count * element_size(which));
    for (size_t i = 0; i < all_numbers(which); i++) {
        x = generator_next(x);
        set_number(which, i, x >> shift);
    }
}
