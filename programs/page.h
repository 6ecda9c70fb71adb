/* A page in memory, and its pictures. The rules are left to the library. */
#ifndef PAGE_H
#define PAGE_H

#include <stdbool.h>

#include "feldrime.h"
#include "say.h"

struct page {
    feldrime_page parts;
    uint32_t lines, dots;   /* the picture's size */
    uint32_t rows, columns; /* and the same in cells of a plain row */
};

/* A row's code: all but the plain ones are of double width, and the last two are the halves of double height. */
enum code { PLAIN, WIDE, TOP, BOTTOM };

/* Each reads a file. If it is refused or cannot be read, why becomes the reason. */
bool read_page(const char *name, struct page *page, char why[WHY]);
bool read_font(const char *name, feldrime_font *font, char why[WHY]);

/* Whether an answer is no refusal. why becomes its number and words, and then the hint. */
bool judge(feldrime_answer answer, const char *hint, char why[WHY]);

/* The addresses of the cells that a row shows. Gives their count, which of a row of double width is half of
   page->columns, rounded up. */
uint32_t cells_of(const struct page *page, uint32_t row, uint16_t cells[FELDRIME_CELLS]);

/* A board with the page's numbers, which has them by name. */
feldrime_board board_of(const struct page *page);

/* Whether a row table names where each row begins, and whether its entries hold the rows' codes as well. */
bool has_table(const struct page *page);
bool has_codes(const struct page *page);

/* Whether attribute bit 5 makes a cell graphics, as on chip B, and does not strike it, as on chip A. */
bool has_graphics(const struct page *page);

/* Whether attributes run on. */
bool in_field_mode(const struct page *page);

/* The cell that holds a row's entry of the row table: its low byte, 0, or its high byte, 1. */
uint32_t entry_cell(const struct page *page, uint32_t row, uint32_t byte);

/* PLAIN if the page has no codes. */
enum code code_of(const struct page *page, uint32_t row);

/* A new picture of lines x dots levels, as in a field. NULL, and says why, if there is no memory for it. */
uint8_t *picture_of(const struct page *page, const feldrime_font *font, uint8_t field);

#endif
