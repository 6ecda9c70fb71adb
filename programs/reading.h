/* What a person reads in a page's picture. */
#ifndef READING_H
#define READING_H

#include "fields.h"

enum { ROWS = 128 }; /* the most that a page has */

/* A line is what a row says, or the two rows of a headline of double height. */
struct reading {
    uint32_t lines;
    uint32_t length[ROWS]; /* up to the last letter that is no blank, or the last beginning of graphics */
    char letter[ROWS][FELDRIME_CELLS];
    bool graphics[ROWS][FELDRIME_CELLS]; /* it shows graphics, and its letter is a blank */
    bool struck[ROWS][FELDRIME_CELLS]; /* a line goes through it, or through the blank between two such letters */
};

/* Reads the pictures of a page. Says why it could not. */
bool read_picture(const struct page *page, const feldrime_font *font, const struct fields *fields,
                  struct reading *reading);

/* The first line that has letters to read, without what is struck, and with single blanks; "" if there is none. */
void title_of(const struct reading *reading, char title[FELDRIME_CELLS + 1]);

bool is_empty(const struct reading *reading);

#endif
