/* A page's rows as text. */
#ifndef TEXT_H
#define TEXT_H

#include "page.h"

/* The bytes that a row's text can have. A cell of graphics between letters takes most of them. */
enum { TEXT = FELDRIME_CELLS * sizeof "[graphics]" };

/* What stands in a row's cells, a letter for each, up to the last that is no blank. Cells of graphics on end are
   "[graphics]", and then blanks up to the next cell if there is room for them. */
void text_of(const struct page *page, uint32_t row, char text[TEXT]);

/* The letter that stands for a character byte. */
char letter_of(uint8_t byte);

#endif
