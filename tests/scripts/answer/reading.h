/* The words of a script's line. A word that is not of the kind asked for ends the program. */
#ifndef READING_H
#define READING_H

#include <stddef.h>
#include <stdint.h>

uint32_t number(const char *word);

/* A number below 256. */
uint8_t small(const char *word);

/* The first digits of a text. */
uint32_t hex_digits(const char *text, size_t digits);

#endif
