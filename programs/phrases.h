/* A list of phrases, from a text file: a line for each record, with its language, its number, its first cell and its
   length in cells. Text after a # is a comment. */
#ifndef PHRASES_H
#define PHRASES_H

#include "languages.h"
#include "page.h"

struct phrases {
    feldrime_phrase *records; /* a language is its place in languages */
    uint32_t *lines;          /* of the file, for each record */
    size_t count, room;
};

/* Reads a list. If it cannot be read, a line is not a phrase or a record is refused, why becomes the reason. */
bool read_phrases(const char *name, struct phrases *list, char why[WHY]);

/* Whether no two records of one language and number differ. If some do, why becomes the first two. */
bool phrases_agree(const struct phrases *list, char why[WHY]);

/* Whether some phrase of a language holds all cells that a row shows. */
bool is_held(const struct phrases *list, const struct language *language, const struct page *page, uint32_t row);

void drop_phrases(struct phrases *list);

#endif
