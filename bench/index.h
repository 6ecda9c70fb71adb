/* The C calls about phrases, which have the prototypes of the library's, and the list that is asked. */
#ifndef INDEX_H
#define INDEX_H

#include "pages.h"

typedef typeof(feldrime_phrase_of_row) phrase_finder;
typedef typeof(feldrime_phrases_differ) phrase_comparer;

phrase_finder plain_phrase_of_row;     /* index.c */
phrase_comparer plain_phrases_differ;

#define PHRASES 10000u

/* Records of 80 cells, of which no two disagree. */
extern feldrime_phrase phrases[PHRASES];

void make_phrases(void);

/* 0, and a word about it, where the library and plain C differ on a set's rows, or on lists with a bad record, two that disagree, or none. */
int same_phrases(const struct set *set);

static inline feldrime_phrase_answer find_phrase(phrase_finder *find, const struct page *page, size_t count, uint32_t row)
{
    return find(page->numbers, FELDRIME_NUMBERS, page->chars, FELDRIME_MEMORY, phrases, count, row);
}

#endif
