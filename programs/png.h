/* Pictures as PNG files. */
#ifndef PNG_H
#define PNG_H

#include <stdbool.h>

#include "page.h"

/* Writes a page's picture as a file, a pixel for each dot. Says why it could not. */
bool write_png(const char *name, const struct page *page, const uint8_t *picture);

#endif
