#include "pages.h"

#include <stdio.h>
#include <string.h>

#include "rules.h"

#define LINES 10

/* A xorshift generator with a fixed seed: the same inputs in every run. */
static uint32_t next_random(void)
{
    static uint32_t x = 2463534242;

    x ^= x << 13;
    x ^= x >> 17;
    x ^= x << 5;
    return x;
}

static const struct font *random_font(void)
{
    static struct font font;

    if (font.shifted[0] != 0)
        return &font;
    for (size_t i = 0; i < COUNT(font.words); i++)
        font.words[i] = next_random() & 0x3FF;
    for (size_t i = 0; i < COUNT(font.flags); i++)
        font.flags[i] = next_random() & 1;
    for (uint8_t i = 0; i < COUNT(font.unshifted); i++) {
        font.unshifted[i] = i;
        font.shifted[i] = i + 1;
    }
    return &font;
}

/* The same with groups: a scan line has none, or one of the four. */
static const struct font *grouped_font(void)
{
    static struct font font;

    if (font.group_count != 0)
        return &font;
    font = *random_font();
    font.group_count = COUNT(font.groups);
    for (uint8_t i = 0; i < COUNT(font.groups); i++)
        font.groups[i] = i % 5;
    return &font;
}

/* Random characters, one cell in eight with none, and random attributes that hold for some cells on end, as those of a text do. */
static void random_text(struct page *page)
{
    uint8_t attr = 0;

    for (size_t i = 0; i < COUNT(page->chars); i++) {
        uint32_t r = next_random();

        page->chars[i] = (r & 0x7F) | (r & 0x700 ? 0x80 : 0);
        if ((r & 0x3800) == 0)
            attr = r >> 16;
        page->attrs[i] = attr;
    }
}

static void measure(struct page *page)
{
    feldrime_size size = feldrime_page_size(page->numbers, FELDRIME_NUMBERS);

    page->lines = size.lines;
    page->width = size.dots;
}

/* The cells wrap inside a buffer of 2048; the row table begins at an odd address and runs over the end of memory. */
void make_sheets(struct set *set, const char *name, uint8_t rows, uint8_t columns, uint8_t dots, uint8_t switches)
{
    set->name = name;
    set->times = 1;
    for (set->count = 0; set->count < 2; set->count++) {
        struct page *page = &set->pages[set->count];
        const uint8_t numbers[FELDRIME_NUMBERS] = {
            switches > 15 ? 2 : 1,                  /* version */
            (LINES - 1) << 3, 34,                   /* EC 35 */
            (set->count ? 0x80 : 0) | 3 << 3 | 2,   /* row table; HSYNC 8, HBP 7 */
            8, rows - 1, columns - 1,
            2 << 4 | 8,                             /* cursor on lines 2 to 8 */
            0x20 | 9,                               /* it blinks; underline on line 9 */
            0, 1 << 4,                              /* buffer 0 to 2047 */
            0, 0, 0, 0, 0,
            1000 >> 8, 1000 & 0xFF,                 /* screen start 1 */
            1005 >> 8, 1005 & 0xFF,                 /* cursor */
            16361 >> 8, 16361 & 0xFF,               /* screen start 2 */
            switches, dots, 4,                      /* strike on line 4 */
        };

        memcpy(page->numbers, numbers, sizeof numbers);
        page->font = random_font();
        random_text(page);
        measure(page);
    }
}

void switched(struct set *to, const struct set *from, uint8_t switches)
{
    *to = *from;
    for (size_t p = 0; p < to->count; p++)
        to->pages[p].numbers[22] = switches;
}

void mingled(struct set *to, const struct set *from, const char *name)
{
    *to = *from;
    to->name = name;
    for (size_t p = 0; p < to->count; p++) {
        to->pages[p].numbers[0] = 3;
        to->pages[p].numbers[25] = 1;
        to->pages[p].font = grouped_font();
    }
}

/* AFLG in every cell, and bit 5 in all or none. */
static void all_attributes(struct set *set, uint8_t bit_5)
{
    for (size_t p = 0; p < set->count; p++)
        for (size_t i = 0; i < FELDRIME_MEMORY; i++) {
            uint8_t *attr = &set->pages[p].attrs[i];

            *attr = (*attr & ~GRAPHICS) | bit_5 | AFLG;
        }
}

void lettered(struct set *to, const struct set *from, const char *name)
{
    mingled(to, from, name);
    all_attributes(to, 0);
}

void drawn(struct set *to, const struct set *from, const char *name)
{
    mingled(to, from, name);
    all_attributes(to, GRAPHICS);
}

static void code_rows(struct page *page, const uint8_t *codes, size_t count)
{
    unsigned table = big_endian(page->numbers + 20);

    page->numbers[1] |= 0x80;
    page->numbers[3] |= 0x80;
    for (uint32_t row = 0; row < page->lines / LINES; row++) {
        unsigned low = (table + 2 * row) % MEMORY, high = (low + 1) % MEMORY;
        uint8_t code = codes[row % count];

        if (row > 0 && code == BOTTOM_ROW) {
            page->chars[low] = page->chars[(low + MEMORY - 2) % MEMORY];
            page->chars[high] = page->chars[(high + MEMORY - 2) % MEMORY];
        }
        page->chars[high] = (page->chars[high] & 63) | code << 6;
    }
}

void coded(struct set *to, const struct set *from, const char *name, const uint8_t *codes, size_t count)
{
    *to = *from;
    to->name = name;
    for (size_t p = 0; p < to->count; p++)
        code_rows(&to->pages[p], codes, count);
}

void without_aflg(struct set *set)
{
    for (size_t p = 0; p < set->count; p++)
        for (size_t i = 0; i < FELDRIME_MEMORY; i++)
            set->pages[p].attrs[i] &= 0x7F;
}

void aflg_in_each_row(struct set *set)
{
    without_aflg(set);
    for (size_t p = 0; p < set->count; p++) {
        struct page *page = &set->pages[p];
        uint16_t cells[FELDRIME_CELLS];

        for (uint32_t row = 0; row < page->lines / LINES; row++) {
            feldrime_row_cells(page->numbers, FELDRIME_NUMBERS, page->chars, FELDRIME_MEMORY, row, cells, FELDRIME_CELLS);
            page->attrs[cells[0]] |= 0x80;
        }
    }
}

static size_t read_file(const char *name, uint8_t *bytes, size_t room)
{
    FILE *file = fopen(name, "rb");
    size_t count = file == NULL ? 0 : fread(bytes, 1, room, file);

    if (file != NULL)
        fclose(file);
    return count;
}

int read_samples(struct set *set, char *const names[], size_t count)
{
    static struct font font;
    static uint8_t file[FELDRIME_PAGE_FILE + 1]; /* one more, so that a file that is too long is refused */
    size_t size = count == 0 ? 0 : read_file(names[0], file, sizeof file);

    set->name = "samples";
    set->times = 1;
    set->count = 0;
    feldrime_font_answer read = feldrime_font_read(file, size, font.words, FELDRIME_WORDS, font.flags, FELDRIME_FLAGS,
                                                   font.unshifted, FELDRIME_LIST, font.shifted, FELDRIME_LIST,
                                                   font.groups, FELDRIME_GROUPS);
    if (read.refusal != 0)
        return 0;
    font.group_count = read.groups;
    for (size_t i = 1; i < count && set->count < COUNT(set->pages); i++) {
        struct page *page = &set->pages[set->count++];

        size = read_file(names[i], file, sizeof file);
        if (feldrime_page_read(file, size, page->numbers, FELDRIME_NUMBERS, page->chars, FELDRIME_MEMORY,
                               page->attrs, FELDRIME_MEMORY).refusal != 0)
            return 0;
        page->font = &font;
        measure(page);
    }
    return set->count > 0;
}

/* ---- the painters ---- */

static uint32_t by_lines(line_drawer *draw, const struct page *page, uint8_t field, uint8_t *out)
{
    for (uint32_t line = 0; line < page->lines; line++) {
        feldrime_answer a = draw(page->numbers, FELDRIME_NUMBERS, MEMORIES(page), FONT(page), line, field,
                                 out + (size_t)line * page->width, page->width);
        if (a.refusal != 0)
            return a.refusal;
    }
    return 0;
}

uint32_t plain_lines(const struct page *page, uint8_t field, uint8_t *out)
{
    return by_lines(plain_line_draw, page, field, out);
}

uint32_t library_lines(const struct page *page, uint8_t field, uint8_t *out)
{
    return by_lines(feldrime_line_draw, page, field, out);
}

static uint32_t at_once(picture_drawer *draw, const struct page *page, uint8_t field, uint8_t *out)
{
    return draw(page->numbers, FELDRIME_NUMBERS, MEMORIES(page), FONT(page), field,
                out, (size_t)page->lines * page->width).refusal;
}

uint32_t library_picture(const struct page *page, uint8_t field, uint8_t *out)
{
    return at_once(feldrime_picture_draw, page, field, out);
}

uint32_t expert_picture(const struct page *page, uint8_t field, uint8_t *out)
{
    return at_once(expert_picture_draw, page, field, out);
}

/* ---- boards ---- */

feldrime_board board_at(const struct page *page, uint8_t field)
{
    feldrime_board board = feldrime_board_of(page->numbers, FELDRIME_NUMBERS).board;

    board.place.field = field;
    return board;
}

/* The sheets have 102 clocks a line, and 27 lines beside the visible ones. */
uint32_t clocks_of(const struct page *page)
{
    return 102 * (page->lines + 27);
}
