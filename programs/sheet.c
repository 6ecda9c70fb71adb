/* feldrime sheet: a page of the catalogue whose rows follow one another becomes a typed sheet. */
#include <stdio.h>

#include "move.h"
#include "words.h"

const char sheet_help[] =
    "Usage: feldrime sheet [OPTION]... PAGE OUT\n"
    "Turns a page of the catalogue into a typed sheet, which has no row table: each row after the first begins where the\n"
    "row before it ended. The picture stays the same in every field.\n"
    "\n"
    "  PAGE  a page file with a row table, whose rows already follow one another like that\n"
    "  OUT   the page file to write. A file of this name is replaced once the new one is complete. PAGE itself is never\n"
    "        replaced\n"
    "\n"
    "Screen start 1 becomes the first cell of row 0, and IR2[7] is cleared. Nothing else changes, and the table stays in\n"
    "its cells: a sheet that was moved to the catalogue and back differs only in screen start 2 and in these cells.\n"
    "A page is refused if it has no row table, if its rows have codes (IR0[7]) or if they do not follow one another.\n";

/* A row's first cell. */
static uint16_t begin_of(const struct page *page, uint32_t row)
{
    uint16_t cells[FELDRIME_CELLS];

    cells_of(page, row, cells);
    return cells[0];
}

/* Names the first row that does not follow. Where it should begin is for the library to say: a sheet that begins where
   the page does has the same rows up to there, and goes on where the last of them ended. */
static void hint_apart(const struct page *page, char text[WHY])
{
    static struct page sheet;
    feldrime_board board = board_of(page);
    uint16_t first = begin_of(page, 0);
    uint32_t row = 1;

    sheet = *page;
    board.page.irs[2] &= 0x7F;
    board.page.starts.start1 = first;
    feldrime_numbers_of(board, sheet.parts.numbers, FELDRIME_NUMBERS);
    while (row + 1 < page->rows && begin_of(page, row) == begin_of(&sheet, row))
        row++;
    snprintf(text, WHY, ": row %u begins at cell %u, not at cell %u, where row %u ended", (unsigned)row,
             (unsigned)begin_of(page, row), (unsigned)begin_of(&sheet, row), (unsigned)row - 1);
}

static void hint(const struct page *page, uint32_t refusal, char text[WHY])
{
    if (refusal == FELDRIME_REFUSED_KIND)
        snprintf(text, WHY, ": this page has no row table");
    else if (refusal == FELDRIME_REFUSED_APART)
        hint_apart(page, text);
}

static void report(const char *name, const struct page *page)
{
    printf("%s: a typed sheet, which begins at cell %u\n", name, (unsigned)begin_of(page, 0));
}

int sheet_word(int count, char **operands)
{
    static const struct move move = { feldrime_make_sheet, hint, report };

    (void)count;
    return move_page(&move, operands[0], operands[1]);
}
