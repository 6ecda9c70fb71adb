/* A page moved to the other kind and back. */
#include <inttypes.h>
#include <stdbool.h>
#include <stdio.h>
#include <stdlib.h>
#include <string.h>

#include "calls.h"
#include "fail.h"
#include "lent.h"
#include "orders.h"
#include "reading.h"
#include "report.h"
#include "steps.h"
#include "sums.h"

enum { MOST_CLOCKS = 30000 };

/* What a move is lent. */
struct movable {
    uint8_t numbers[FELDRIME_NUMBERS], chars[FELDRIME_MEMORY];
};

/* What a page shows: pictures of some fields, end to end, and its first clocks. */
struct look {
    bool refused;
    size_t dots;
    uint8_t *pictures;
    uint32_t clocks;
    feldrime_step_answer *steps;
};

static void *some_memory(size_t count, size_t size)
{
    void *memory = calloc(count + 1, size);

    if (memory == NULL)
        fail("no memory for a look");
    return memory;
}

static struct movable lent_page(void)
{
    struct movable page;

    if (lent[NUMBERS].bytes != sizeof page.numbers || lent[CHARS].bytes != sizeof page.chars)
        fail("no page to move");
    memcpy(page.numbers, lent[NUMBERS].start, sizeof page.numbers);
    memcpy(page.chars, lent[CHARS].start, sizeof page.chars);
    return page;
}

/* Each field of a look has two hex digits. */
static void look_at_pictures(struct look *look, const struct movable *page, const char *fields)
{
    feldrime_size size = feldrime_page_size(page->numbers, FELDRIME_NUMBERS);
    size_t count = strlen(fields) / 2, each = (size_t)size.lines * size.dots;

    look->dots = count * each;
    look->pictures = some_memory(look->dots, 1);
    for (size_t i = 0; i < count; i++) {
        uint8_t field = (uint8_t)hex_digits(fields + 2 * i, 2);
        feldrime_answer answer = feldrime_picture_draw(page->numbers, FELDRIME_NUMBERS, page->chars, FELDRIME_MEMORY,
                                                       BYTES(ATTRS), FONT, field, look->pictures + i * each, each);
        look->refused = look->refused || answer.refusal != 0;
    }
}

static void look_at_clocks(struct look *look, const struct movable *page)
{
    feldrime_board at = feldrime_board_of(page->numbers, FELDRIME_NUMBERS).board;

    look->steps = some_memory(MOST_CLOCKS, sizeof *look->steps);
    do {
        feldrime_step_answer *step = &look->steps[look->clocks];
        *step = feldrime_step(&at, page->chars, FELDRIME_MEMORY, BYTES(ATTRS), FONT);
        look->refused = look->refused || step->refusal != 0;
        look->clocks++;
    } while (!look->refused && (at.place.line != 0 || at.place.clock != 0) && look->clocks != MOST_CLOCKS);
}

static struct look look_at(const struct movable *page, const char *fields)
{
    struct look look = { 0 };

    look_at_pictures(&look, page, fields);
    look_at_clocks(&look, page);
    return look;
}

static bool same_look(const struct look *a, const struct look *b)
{
    return !a->refused && !b->refused && a->dots == b->dots && memcmp(a->pictures, b->pictures, a->dots) == 0
           && a->clocks == b->clocks && memcmp(a->steps, b->steps, a->clocks * sizeof *a->steps) == 0;
}

static void forget_look(struct look *look)
{
    free(look->pictures);
    free(look->steps);
}

/* Whether the page that is lent now shows the same. */
static bool shows_the_same(const struct look *look, const char *fields)
{
    struct movable page = lent_page();
    struct look now = look_at(&page, fields);
    bool same = same_look(look, &now);

    forget_look(&now);
    return same;
}

static uint32_t start2_of(const struct movable *page)
{
    return 256u * page->numbers[20] + page->numbers[21];
}

static uint32_t rows_of(const struct movable *page)
{
    return (page->numbers[5] & 127u) + 1;
}

/* Whether the page, which was this one, differs from it as a page moved there or back does: there in IR2[7], screen
   start 2 and the table's cells, back in IR2[7] and screen start 1, and in nothing else. */
static bool changed_alone(struct movable before, bool there)
{
    struct movable now = lent_page();
    size_t address = there ? 20 : 16, table = start2_of(&now), size = 2 * rows_of(&now);

    before.numbers[3] ^= 128;
    memcpy(before.numbers + address, now.numbers + address, 2);
    if (there && table + size <= sizeof before.chars)
        memcpy(before.chars + table, now.chars + table, size);
    return memcmp(&before, &now, sizeof now) == 0;
}

/* A move; `alone` becomes false where it changed what it must not. */
static uint32_t move(bool there, bool *alone)
{
    struct movable before = lent_page(), now;
    uint32_t refusal = there ? to_table() : to_sheet();

    now = lent_page();
    *alone = *alone && (refusal == 0 ? changed_alone(before, there) : memcmp(&before, &now, sizeof now) == 0);
    return refusal;
}

/* A sheet goes back, and begins where it did; a table page's cells may leave no room for another table. */
static bool came_home(const struct movable *old, bool there, uint32_t refusal)
{
    if (there)
        return refusal == 0 && memcmp(old->numbers + 16, lent[NUMBERS].start + 16, 2) == 0;
    return refusal == 0 || refusal == FELDRIME_REFUSED_STRETCH;
}

static void print_look(const struct look *look, const char *fields)
{
    uint64_t pictures = sum_start, clocks = sum_start;

    for (size_t i = 0; i < look->dots; i++)
        pictures = add(pictures, look->pictures[i]);
    for (uint32_t i = 0; i < look->clocks; i++)
        clocks = add_shown(clocks, &look->steps[i]);
    printf(" pictures %zu %016" PRIx64, strlen(fields) / 2, pictures);
    printf(" steps %" PRIu32 " %016" PRIx64 "\n", look->clocks, clocks);
}

/* The page has been moved to its other kind: looks at it, moves it back and looks again. */
static void move_home(const struct movable *old, bool there, bool agree, const char *page_mode, const char *fields)
{
    struct look look = look_at(old, fields);
    struct movable now;
    uint32_t refusal;

    agree = shows_the_same(&look, fields) && agree;
    refusal = move(!there, &agree);
    agree = came_home(old, there, refusal) && agree;
    agree = shows_the_same(&look, fields) && agree;
    now = lent_page();
    printf("moves %s 0 %s %" PRIu32 " %s %s", there ? "there" : "back", there ? "back" : "there", refusal,
           agree ? "agree" : "differ", page_mode);
    printf(" table %" PRIu32 " rows %" PRIu32, start2_of(&now), rows_of(&now));
    print_look(&look, fields);
    forget_look(&look);
}

void do_moves(char **word)
{
    struct movable old;
    const char *page_mode = by_numbers().mode;
    bool there, agree = true;
    uint32_t refusal;

    if (strlen(word[1]) % 2 != 0)
        fail("a field has two digits");
    if (page_size().refusal != 0)
        return;
    old = lent_page();
    there = (old.numbers[3] & 128) == 0;
    refusal = move(there, &agree);
    if (refusal == 0)
        move_home(&old, there, agree, page_mode, word[1]);
    else
        printf("moves %s %" PRIu32 " %s %s\n", there ? "there" : "back", refusal, agree ? "agree" : "differ",
               page_mode);
    memcpy(lent[NUMBERS].start, old.numbers, sizeof old.numbers);
    memcpy(lent[CHARS].start, old.chars, sizeof old.chars);
}
