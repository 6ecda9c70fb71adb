/* The board's characters are read as ASCII, as in the samples' font. */
#include "text.h"

#include <string.h>

enum { GRAPHICS = 1 << 5, AFLG = 1 << 7 }; /* of an attribute byte */

char letter_of(uint8_t byte)
{
    uint8_t code = byte & 0x7F;

    if (byte < 0x80)
        return ' ';
    return code >= ' ' && code <= '~' ? (char)code : '.';
}

/* The attribute byte that is valid in a cell; the one before it runs on in field mode. 0 is none. */
static uint8_t valid_in(const struct page *page, uint16_t cell, uint8_t before)
{
    uint8_t own = page->parts.attrs[cell];

    if (own & AFLG)
        return own;
    return in_field_mode(page) ? before : 0;
}

/* Which cells of a row are graphics, by what is valid before it. Gives what is valid after it. */
static uint8_t mark_graphics(const struct page *page, uint32_t row, uint8_t valid, bool graphics[FELDRIME_CELLS])
{
    uint16_t cells[FELDRIME_CELLS];
    uint32_t count = cells_of(page, row, cells);

    for (uint32_t c = 0; c < count; c++) {
        valid = valid_in(page, cells[c], valid);
        graphics[c] = has_graphics(page) && valid & GRAPHICS;
    }
    return valid;
}

/* The same of any row, by all rows from the first on. */
static void find_graphics(const struct page *page, uint32_t row, bool graphics[FELDRIME_CELLS])
{
    uint8_t valid = 0;

    for (uint32_t r = 0; r <= row; r++)
        valid = mark_graphics(page, r, valid, graphics);
}

void text_of(const struct page *page, uint32_t row, char text[TEXT])
{
    static const char word[] = "[graphics]";
    uint16_t cells[FELDRIME_CELLS];
    bool graphics[FELDRIME_CELLS];
    uint32_t all = cells_of(page, row, cells), first = 0;
    char *end = text, *next = text;

    find_graphics(page, row, graphics);
    for (uint32_t c = 0; c < all; c++) {
        if (graphics[c] && (c == 0 || !graphics[c - 1])) {
            first = c;
            memcpy(next, word, sizeof word);
            end = next += strlen(word);
        } else if (!graphics[c] || c - first >= strlen(word)) {
            *next++ = graphics[c] ? ' ' : letter_of(page->parts.chars[cells[c]]);
            end = next[-1] == ' ' ? end : next;
        }
    }
    *end = '\0';
}
