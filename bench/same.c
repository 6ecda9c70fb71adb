/* What is measured must give the same bytes and numbers. */
#include <stdio.h>
#include <string.h>

#include "pages.h"

#define MOST (2048 * FELDRIME_LINE)
#define BEYOND 64 /* bytes after the picture that must stay */

static uint8_t picture[MOST + BEYOND], expected[MOST + BEYOND];

/* Compares a painter's picture with the plain one. */
static int same_as_plain(const char *name, painter *paint, const struct set *set, const struct page *page, uint8_t field)
{
    size_t size = (size_t)page->lines * page->width + BEYOND;

    memset(picture, 0xFF, size);
    uint32_t refusal = paint(page, field, picture);
    if (refusal != 0) {
        printf("%s is refused %u on %s\n", name, (unsigned)refusal, set->name);
        return 0;
    }
    for (size_t i = 0; i < size; i++)
        if (picture[i] != expected[i]) {
            printf("%s differs from plain: %s, page %zu, %u dots, field %u, byte %zu is %u and not %u\n", name, set->name,
                (size_t)(page - set->pages), page->numbers[23], field, i, picture[i], expected[i]);
            return 0;
        }
    return 1;
}

int same_pictures(const struct set *set)
{
    for (size_t p = 0; p < set->count; p++)
        for (size_t f = 0; f < COUNT(fields); f++) {
            const struct page *page = &set->pages[p];

            memset(expected, 0xFF, (size_t)page->lines * page->width + BEYOND);
            if (plain_lines(page, fields[f], expected) != 0) {
                printf("plain is refused on %s\n", set->name);
                return 0;
            }
            if (!same_as_plain("the library's line", library_lines, set, page, fields[f])
                || !same_as_plain("the library's picture", library_picture, set, page, fields[f])
                || !same_as_plain("the expert's picture", expert_picture, set, page, fields[f]))
                return 0;
        }
    return 1;
}

/* Says what differs, if it does. */
static int differ(const char *what, uint32_t library, uint32_t plain)
{
    if (library != plain)
        printf("step: %s is %u in the library and %u in plain C\n", what, (unsigned)library, (unsigned)plain);
    return library != plain;
}

static int answers_differ(const feldrime_step_answer *a, const feldrime_step_answer *b)
{
    for (size_t i = 0; i < COUNT(a->dots); i++)
        if (differ("a dot", a->dots[i], b->dots[i]))
            return 1;
    return differ("the refusal", a->refusal, b->refusal)
        || differ("the number beside it", a->beside, b->beside)
        || differ("HSYNC", a->hsync, b->hsync)
        || differ("VSYNC", a->vsync, b->vsync)
        || differ("BLANK", a->blank, b->blank)
        || differ("CURSOR", a->cursor, b->cursor)
        || differ("BLINK", a->blink, b->blink)
        || differ("the address", a->address, b->address);
}

static int boards_differ(const feldrime_board *a, const feldrime_board *b)
{
    for (size_t i = 0; i < COUNT(a->page.irs); i++)
        if (differ("an IR of the next board", a->page.irs[i], b->page.irs[i]))
            return 1;
    return differ("the next version", a->page.version, b->page.version)
        || differ("the next screen start 1", a->page.starts.start1, b->page.starts.start1)
        || differ("the next cursor address", a->page.starts.cursor, b->page.starts.cursor)
        || differ("the next screen start 2", a->page.starts.start2, b->page.starts.start2)
        || differ("the next switches", a->page.switches, b->page.switches)
        || differ("the next dots a cell", a->page.video.dots, b->page.video.dots)
        || differ("the next strike line", a->page.video.strike, b->page.video.strike)
        || differ("the next chip", a->page.video.chip, b->page.video.chip)
        || differ("the next field", a->place.field, b->place.field)
        || differ("the next line", a->place.line, b->place.line)
        || differ("the next clock in the line", a->place.clock, b->place.clock)
        || differ("the next address", a->place.beam.address, b->place.beam.address)
        || differ("the next latch", a->place.beam.latch, b->place.beam.latch)
        || differ("the next row start", a->place.row.address, b->place.row.address)
        || differ("the next row latch", a->place.row.latch, b->place.row.latch)
        || differ("the next row code", a->place.row.code, b->place.row.code)
        || differ("the next pointer", a->pointer, b->pointer)
        || differ("the next count of resets", a->resets, b->resets);
}

/* Latch bytes and a row code that no step left there: in character mode, without AFLG and at the start of a frame the bytes count as none,
   and without IR0[7] the code. */
static void disturb(feldrime_board *board, uint32_t n)
{
    board->place.beam.latch = 255 - n / 7 % 256;
    board->place.row.latch = 255 - n / 5 % 256;
    board->place.row.code = 255 - n / 3 % 256;
}

/* One frame, clock by clock, by both steps. */
static int same_frame(const struct page *page, uint8_t field)
{
    feldrime_board library = board_at(page, field), plain = library;
    uint32_t clocks = clocks_of(page);

    for (uint32_t n = 0; n < clocks; n++) {
        if (n % 991 == 0) {
            disturb(&library, n);
            disturb(&plain, n);
        }
        feldrime_step_answer a = step_once(feldrime_step, page, &library);
        feldrime_step_answer b = step_once(plain_step, page, &plain);

        if (b.refusal != 0 || answers_differ(&a, &b) || boards_differ(&library, &plain)) {
            printf("step: at clock %u of the frame, plain refusal %u, field %u\n", (unsigned)n, (unsigned)b.refusal, field);
            return 0;
        }
    }
    if (library.place.line != 0 || library.place.clock != 0) {
        printf("step: a frame is not %u clocks\n", (unsigned)clocks);
        return 0;
    }
    return 1;
}

int same_steps(const struct set *set)
{
    for (size_t p = 0; p < set->count; p++)
        for (size_t f = 0; f < COUNT(fields); f++)
            if (!same_frame(&set->pages[p], fields[f]))
                return 0;
    return 1;
}

int states_answer(const struct set *set)
{
    for (size_t p = 0; p < set->count; p++) {
        feldrime_board board = board_at(&set->pages[p], 0);
        uint32_t zero = state_at(&set->pages[p], board, 0).refusal;
        uint32_t far = state_at(&set->pages[p], board, FAR).refusal;

        if (zero != 0 || far != 0) {
            printf("state: refused %u for n = 0, %u for n = 2^32 - 1\n", (unsigned)zero, (unsigned)far);
            return 0;
        }
    }
    return 1;
}
