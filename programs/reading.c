/* Letters come from memory, but only if the picture shows them: a hidden cell, one whose character makes way for the
   attributes that it sets, or a display that is off, is not for the public. Nor is a cell of graphics a letter. The
   pictures decide, and not a second copy of the rules. */
#include "reading.h"

#include <stdlib.h>
#include <string.h>

#include "text.h"

enum { UNDERLINE = 1 << 3, BIT_5 = 1 << 5 }; /* of an attribute byte */

/* Whether something is so in the cells of each row. */
typedef bool marks[ROWS][FELDRIME_CELLS];

/* What the cells are seen to have. */
struct seen {
    marks letter, graphics, struck;
};

/* The attribute that strikes a cell. Chip B has none: there the same bit makes graphics. */
static int strike_of(const struct page *page)
{
    return has_graphics(page) ? 0 : BIT_5;
}

/* A column's stretch of one scan line. */
static const uint8_t *stretch(const struct page *page, const uint8_t *picture, uint32_t row, uint32_t column,
                              uint32_t line)
{
    size_t y = row * (page->lines / page->rows) + line;

    return picture + y * page->dots + column * (page->dots / page->columns);
}

static bool differs(const struct page *page, const uint8_t *one, const uint8_t *other, uint32_t row, uint32_t column)
{
    for (uint32_t line = 0; line < page->lines / page->rows; line++)
        if (memcmp(stretch(page, one, row, column, line), stretch(page, other, row, column, line),
                   page->dots / page->columns) != 0)
            return true;
    return false;
}

/* Marks the cells that look otherwise in another picture. In a row of double width two columns show a cell. */
static void mark_differing(const struct page *page, const uint8_t *one, const uint8_t *other, marks cells)
{
    for (uint32_t row = 0; row < page->rows; row++) {
        uint32_t columns_each = code_of(page, row) == PLAIN ? 1 : 2;
        for (uint32_t c = 0; c < page->columns; c++)
            if (differs(page, one, other, row, c))
                cells[row][c / columns_each] = true;
    }
}

/* The picture as it were if no cell had these attributes. */
static uint8_t *picture_without(int attributes, const struct page *page, const feldrime_font *font, int field)
{
    static struct page copy;

    copy = *page;
    for (int i = 0; i < FELDRIME_MEMORY; i++)
        copy.parts.attrs[i] &= (uint8_t)~attributes;
    return picture_of(&copy, font, (uint8_t)field);
}

/* Adds the cells that in a field show what a bare font has not: with that one they look otherwise. Underline and strike
   are left away in both pictures, since they could cover it. */
static bool add_shown(const struct page *page, const feldrime_font *font, const feldrime_font *bare, int field,
                      marks shown)
{
    uint8_t *with = picture_without(UNDERLINE | strike_of(page), page, font, field);
    uint8_t *without = picture_without(UNDERLINE | strike_of(page), page, bare, field);
    bool good = with != NULL && without != NULL;

    if (good)
        mark_differing(page, with, without, shown);
    free(with);
    free(without);
    return good;
}

/* Shown in one field is shown: what blinks is read. */
static bool find_shown(const struct page *page, const feldrime_font *font, const feldrime_font *bare,
                       const struct fields *fields, marks shown)
{
    memset(shown, 0, sizeof(marks));
    for (int i = 0; i < fields->count; i++)
        if (!add_shown(page, font, bare, fields->first[i], shown))
            return false;
    return true;
}

static bool find_letters(const struct page *page, const feldrime_font *font, const struct fields *fields, marks letter)
{
    feldrime_font bare = *font;

    memset(bare.words, 0, sizeof bare.words);
    return find_shown(page, font, &bare, fields, letter);
}

static bool find_graphics(const struct page *page, const feldrime_font *font, const struct fields *fields,
                          marks graphics)
{
    feldrime_font bare = *font;

    bare.group_count = 0;
    return find_shown(page, font, &bare, fields, graphics);
}

static bool find_struck(const struct page *page, const feldrime_font *font, const struct fields *fields, marks struck)
{
    uint8_t *unstruck = picture_without(strike_of(page), page, font, 0);

    if (unstruck == NULL)
        return false;
    memset(struck, 0, sizeof(marks));
    mark_differing(page, fields->pictures[0], unstruck, struck);
    free(unstruck);
    return true;
}

/* A row and the one below it are a headline of double height if they are the two halves of the same cells. */
static bool is_headline(const struct page *page, uint32_t row)
{
    uint16_t upper[FELDRIME_CELLS], lower[FELDRIME_CELLS];

    if (row + 1 == page->rows || code_of(page, row) != TOP || code_of(page, row + 1) != BOTTOM)
        return false;
    uint32_t count = cells_of(page, row, upper);
    cells_of(page, row + 1, lower);
    return memcmp(upper, lower, count * sizeof *upper) == 0;
}

/* One half may be all that shows a cell's character, as a comma's, its graphics, or the line through it. */
static void join(bool upper[FELDRIME_CELLS], const bool lower[FELDRIME_CELLS])
{
    for (int c = 0; c < FELDRIME_CELLS; c++)
        upper[c] = upper[c] || lower[c];
}

static void join_rows(struct seen *seen, uint32_t row)
{
    join(seen->letter[row], seen->letter[row + 1]);
    join(seen->graphics[row], seen->graphics[row + 1]);
    join(seen->struck[row], seen->struck[row + 1]);
}

/* A line through blanks says something only between letters that it goes through too. */
static void trim(const char *letter, bool *struck, uint32_t count)
{
    for (uint32_t c = 0; c < count; c++)
        struck[c] = struck[c] && (letter[c] != ' ' || (c > 0 && struck[c - 1]));
    for (uint32_t c = count; c-- > 0;)
        struck[c] = struck[c] && (letter[c] != ' ' || (c + 1 < count && struck[c + 1]));
}

/* Adds a row's cells as a line of the reading. */
static void add_line(const struct page *page, uint32_t row, const struct seen *seen, struct reading *reading)
{
    const bool *graphics = seen->graphics[row];
    uint16_t cells[FELDRIME_CELLS];
    uint32_t count = cells_of(page, row, cells), line = reading->lines++;

    reading->length[line] = 0;
    for (uint32_t c = 0; c < count; c++) {
        bool is_letter = seen->letter[row][c] && !graphics[c], begins = graphics[c] && (c == 0 || !graphics[c - 1]);
        char letter = is_letter ? letter_of(page->parts.chars[cells[c]]) : ' ';
        reading->letter[line][c] = letter;
        reading->graphics[line][c] = graphics[c];
        reading->struck[line][c] = seen->struck[row][c];
        if (letter != ' ' || begins)
            reading->length[line] = c + 1;
    }
    trim(reading->letter[line], reading->struck[line], count);
}

bool read_picture(const struct page *page, const feldrime_font *font, const struct fields *fields,
                  struct reading *reading)
{
    static struct seen seen;

    if (!find_letters(page, font, fields, seen.letter) || !find_graphics(page, font, fields, seen.graphics)
        || !find_struck(page, font, fields, seen.struck))
        return false;
    reading->lines = 0;
    for (uint32_t row = 0, rows; row < page->rows; row += rows) {
        rows = is_headline(page, row) ? 2 : 1;
        if (rows == 2)
            join_rows(&seen, row);
        add_line(page, row, &seen, reading);
    }
    return true;
}

bool is_empty(const struct reading *reading)
{
    for (uint32_t line = 0; line < reading->lines; line++)
        if (reading->length[line] > 0)
            return false;
    return true;
}

void title_of(const struct reading *reading, char title[FELDRIME_CELLS + 1])
{
    uint32_t count = 0;

    for (uint32_t line = 0; line < reading->lines && count == 0; line++) {
        for (uint32_t c = 0; c < reading->length[line]; c++) {
            char letter = reading->letter[line][c];
            bool blank_again = letter == ' ' && (count == 0 || title[count - 1] == ' ');
            if (!blank_again && !reading->struck[line][c])
                title[count++] = letter;
        }
    }
    /* the blank before what was left out at the end */
    if (count > 0 && title[count - 1] == ' ')
        count--;
    title[count] = '\0';
}
