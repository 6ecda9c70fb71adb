/* A page file that becomes another one: what the words catalogue and sheet share. */
#ifndef MOVE_H
#define MOVE_H

#include "page.h"

struct move {
    feldrime_answer (*run)(feldrime_page *page);
    /* What the words of a refusal leave open, as text to follow them. */
    void (*hint)(const struct page *page, uint32_t refusal, char text[WHY]);
    /* What was made, on standard output. */
    void (*report)(const char *name, const struct page *page);
};

/* Moves one page file to another. Gives the exit status. */
int move_page(const struct move *move, const char *from, const char *to);

#endif
