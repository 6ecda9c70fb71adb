/* The web site's pages, as text. */
#ifndef HTML_H
#define HTML_H

#include <stdio.h>

#include "languages.h"
#include "reading.h"

/* A page file, and what became of it. */
struct entry {
    const char *file;
    char stem[256];
    const struct language *language; /* NULL if the file's name gives none */
    bool checked;                    /* whether it is shown only if its rows are in phrases */
    char title[FELDRIME_CELLS + 1];
    char why[WHY]; /* why it is not shown; "" if it is */
};

void html_page(FILE *out, const struct entry *entry, const struct page *page, const struct fields *fields,
               const struct reading *reading);
void html_refused(FILE *out, const struct entry *entry);
void html_index(FILE *out, const struct entry *entries, int count);

#endif
