/* Numbers that people write. */
#ifndef DECIMAL_H
#define DECIMAL_H

#include <stdbool.h>
#include <stdint.h>

/* Whether all of a text is a number, in digits alone, up to the highest. */
bool decimal_of(const char *text, uint32_t highest, uint32_t *number);

#endif
