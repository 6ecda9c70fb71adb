#include "page.h"

#include <errno.h>
#include <stdio.h>
#include <stdlib.h>
#include <string.h>

#include "files.h"
#include "say.h"

bool judge(feldrime_answer answer, const char *hint, char why[WHY])
{
    int end = snprintf(why, WHY, "refused %u, %s%s", (unsigned)answer.refusal, feldrime_meaning(answer.refusal), hint);

    if (answer.beside > 0 && end < WHY)
        snprintf(why + end, (size_t)(WHY - end), ": %u clock%s missing", (unsigned)answer.beside,
                 answer.beside == 1 ? " is" : "s are");
    return answer.refusal == FELDRIME_DONE;
}

feldrime_board board_of(const struct page *page)
{
    return feldrime_board_of(page->parts.numbers, FELDRIME_NUMBERS).board;
}

/* The library counts: rows are there until one is refused. Columns are HACT, since a row may have fewer cells. */
static void measure(struct page *page)
{
    uint16_t cells[FELDRIME_CELLS];
    feldrime_size size = feldrime_size_of(&page->parts);

    page->lines = size.lines;
    page->dots = size.dots;
    page->columns = board_of(page).page.irs[5] + 1U;
    page->rows = 0;
    while (feldrime_cells_of(&page->parts, page->rows, cells, FELDRIME_CELLS).refusal == FELDRIME_DONE)
        page->rows++;
}

bool read_page(const char *name, struct page *page, char why[WHY])
{
    /* One byte more than the longest file has: a file that is too long reaches the library as one. */
    static uint8_t file[FELDRIME_PAGE_FILE + 1];
    size_t count;

    if (!read_file(name, file, sizeof file, &count, why))
        return false;
    feldrime_answer answer = feldrime_load_page(&page->parts, file, count);
    bool as_a_font = count > 0 && count == feldrime_font_bytes(file[0]);
    if (!judge(answer, as_a_font ? " (it is as long as a font)" : "", why))
        return false;
    measure(page);
    return true;
}

bool read_font(const char *name, feldrime_font *font, char why[WHY])
{
    /* Long enough for a page, to recognize one in the place of the font. */
    static uint8_t file[FELDRIME_PAGE_FILE + 1];
    size_t count;

    if (!read_file(name, file, sizeof file, &count, why))
        return false;
    feldrime_font_answer read = feldrime_load_font(font, file, count);
    bool as_a_page = count > 0 && count == feldrime_page_bytes(file[0]);
    return judge((feldrime_answer){ read.refusal, read.beside }, as_a_page ? " (it is as long as a page)" : "", why);
}

uint32_t cells_of(const struct page *page, uint32_t row, uint16_t cells[FELDRIME_CELLS])
{
    return feldrime_cells_of(&page->parts, row, cells, FELDRIME_CELLS).count;
}

bool has_table(const struct page *page)
{
    return board_of(page).page.irs[2] >> 7;
}

/* A page with IR0[7] was accepted only with the row table. */
bool has_codes(const struct page *page)
{
    return board_of(page).page.irs[0] >> 7;
}

bool has_graphics(const struct page *page)
{
    feldrime_board board = board_of(page);

    return board.page.version == 3 && board.page.video.chip == 1;
}

bool in_field_mode(const struct page *page)
{
    return board_of(page).page.switches >> 4 & 1;
}

uint32_t entry_cell(const struct page *page, uint32_t row, uint32_t byte)
{
    return (board_of(page).page.starts.start2 + 2 * row + byte) % FELDRIME_MEMORY;
}

enum code code_of(const struct page *page, uint32_t row)
{
    return has_codes(page) ? (enum code)(page->parts.chars[entry_cell(page, row, 1)] >> 6) : PLAIN;
}

uint8_t *picture_of(const struct page *page, const feldrime_font *font, uint8_t field)
{
    size_t count = (size_t)page->lines * page->dots;
    uint8_t *picture = malloc(count);

    if (picture == NULL) {
        say("the picture", "%s", strerror(errno));
        return NULL;
    }
    /* Both were accepted, and the room is the picture's size: there is nothing left to refuse. */
    feldrime_draw(&page->parts, font, field, picture, count);
    return picture;
}
