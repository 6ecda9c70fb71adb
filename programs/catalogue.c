/* feldrime catalogue: a typed sheet becomes a page of the catalogue, with a row table. */
#include <stdio.h>

#include "move.h"
#include "words.h"

const char catalogue_help[] =
    "Usage: feldrime catalogue [OPTION]... PAGE OUT\n"
    "Turns a typed sheet into a page of the catalogue, which has a row table that names where each row begins. The\n"
    "picture stays the same in every field.\n"
    "\n"
    "  PAGE  a page file without a row table\n"
    "  OUT   the page file to write. A file of this name is replaced once the new one is complete. PAGE itself is never\n"
    "        replaced\n"
    "\n"
    "The table takes two cells for each row: the lowest stretch of cells, not passing cell 16383, that no row shows. The\n"
    "characters in these cells are lost. Apart from them only screen start 2 and IR2[7] change. A page is refused if it\n"
    "has no such stretch, or already has a row table.\n";

static void hint(const struct page *page, uint32_t refusal, char text[WHY])
{
    if (refusal == FELDRIME_REFUSED_KIND)
        snprintf(text, WHY, ": this page has a row table");
    else if (refusal == FELDRIME_REFUSED_STRETCH)
        snprintf(text, WHY, ": %u rows need %u cells", (unsigned)page->rows, 2 * (unsigned)page->rows);
}

static void report(const char *name, const struct page *page)
{
    printf("%s: a page of the catalogue, its row table in cells %u to %u\n", name, (unsigned)entry_cell(page, 0, 0),
           (unsigned)entry_cell(page, page->rows - 1, 1));
}

int catalogue_word(int count, char **operands)
{
    static const struct move move = { feldrime_make_table, hint, report };

    (void)count;
    return move_page(&move, operands[0], operands[1]);
}
