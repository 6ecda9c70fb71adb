/* The buffers that a script lends to the library, and the board, which is kept like them. */
#ifndef LENT_H
#define LENT_H

#include <stdbool.h>
#include <stddef.h>
#include <stdint.h>

#include "feldrime.h"

enum {
    NUMBERS, CHARS, ATTRS, WORDS, FLAGS, UNSHIFTED, SHIFTED, GROUPS, FILE_BYTES, OUT, CELLS, PHRASES,
    BUFFERS, /* how many a script can name */
    BOARD = BUFFERS,
    ALL
};

extern const char *const names[ALL];

extern struct lent {
    size_t bytes;
    uint8_t *start; /* NULL is `none` */
    uint8_t *block; /* what was allocated, guards and all */
    size_t block_size;
    uint8_t *copy; /* what `sum` was taken of, NULL where it has to be taken */
    uint64_t sum;
} lent[ALL];

/* What stands around each buffer: main.c has it from its argument. */
extern enum mode { GUARDED, EXACT, EDGE } mode;

/* Buffers as the calls take them. */
#define BYTES(which) lent[which].start, lent[which].bytes
#define FONT (uint16_t *)(void *)lent[WORDS].start, count_of(WORDS), BYTES(FLAGS), BYTES(UNSHIFTED), BYTES(SHIFTED), \
             BYTES(GROUPS)

/* The bytes of each number of an element. */
size_t number_size(int which);

/* An element is one number, but a phrase is four: language, number, first, length. */
size_t numbers_in_element(int which);

size_t element_size(int which);

/* How many elements there are, and how many numbers in all of them. */
size_t count_of(int which);
size_t all_numbers(int which);

/* One of the numbers of all elements, end to end. */
uint32_t number_at(int which, size_t place);
void set_number(int which, size_t place, uint32_t value);

/* A new buffer: of so many bytes, or of so many elements from the generator. */
void allocate(int which, size_t bytes);
void fill(int which, size_t count, uint32_t seed);

/* The buffer is none. */
void release(int which);

/* The sum has to be taken anew. */
void forget(int which);

uint64_t sum_of(int which);
bool guards_stand(int which);

#endif
