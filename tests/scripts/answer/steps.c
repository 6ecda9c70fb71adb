#include "steps.h"

#include <inttypes.h>
#include <stdio.h>
#include <string.h>

#include "board.h"
#include "lent.h"
#include "orders.h"
#include "reading.h"
#include "report.h"
#include "sums.h"

uint32_t every;
struct steps steps;

uint32_t lines_in_row(void)
{
    return (board->page.irs[0] >> 3 & 15u) + 1;
}

static uint32_t rows_of_page(void)
{
    return (board->page.irs[4] & 127u) + 1;
}

uint32_t columns_of_page(void)
{
    return board->page.irs[5] + 1u;
}

/* WHERE a run of steps begins. */
static const char *begins(void)
{
    uint32_t clock = board->place.clock;
    bool wide = (board->page.irs[0] & 128) != 0 && board->place.row.code % CODES != 0;

    if (board->place.line >= rows_of_page() * lines_in_row() || clock >= columns_of_page())
        return "off";
    if (clock == 0)
        return "load";
    if (!wide)
        return "plain";
    return clock % 2 == 1 ? "right" : clock + 1 == columns_of_page() ? "last" : "left";
}

void begin_steps(void)
{
    memset(&steps, 0, sizeof steps);
    steps.from = begins();
    steps.code = board->place.row.code;
    steps.sum = sum_start;
}

static const char *shown_text(void)
{
    static char text[160];
    const feldrime_step_answer *a = &steps.last;
    char *at = text;

    at += sprintf(at, "hsync %" PRIu32 " vsync %" PRIu32 " blank %" PRIu32, a->hsync, a->vsync, a->blank);
    at += sprintf(at, " cursor %" PRIu32 " blink %" PRIu32 " address %" PRIu32, a->cursor, a->blink, a->address);
    at += sprintf(at, " dots ");
    for (size_t i = 0; i < sizeof a->dots; i++)
        at += sprintf(at, "%02x", (unsigned)a->dots[i]);
    return text;
}

uint64_t add_shown(uint64_t sum, const feldrime_step_answer *a)
{
    const uint32_t shown[] = { a->refusal, a->beside, a->hsync, a->vsync, a->blank, a->cursor, a->blink, a->address };

    for (size_t i = 0; i < sizeof shown / sizeof *shown; i++)
        sum = add(sum, shown[i]);
    for (size_t i = 0; i < sizeof a->dots; i++)
        sum = add(sum, a->dots[i]);
    return sum;
}

static void add_step(void)
{
    const uint32_t after[] = { board->place.field, board->place.line, board->place.clock,
                               board->place.beam.address, board->place.beam.latch,
                               board->place.row.address, board->place.row.latch, board->place.row.code };

    steps.sum = add_shown(steps.sum, &steps.last);
    for (size_t i = 0; i < sizeof after / sizeof *after; i++)
        steps.sum = add(steps.sum, after[i]);
}

bool step_once(void)
{
    steps.last = feldrime_step(board, BYTES(CHARS), BYTES(ATTRS), FONT);
    if (steps.last.refusal != 0)
        return false;
    steps.done++;
    add_step();
    if (every != 0 && steps.done % every == 0)
        printf("at %" PRIu32 " %s board %s\n", steps.done, shown_text(), board_text());
    return true;
}

void report_steps(void)
{
    RESULTS(" from %s %u sum %016" PRIx64 " %s board %s%s", steps.from, (unsigned)steps.code, steps.sum, shown_text(),
            board_text(), above_text());
    report("step", by_board(), steps.last.refusal == 0 ? steps.done : 1, steps.last.refusal, steps.last.beside,
           of_step);
}

void call_step(char **word)
{
    uint32_t count = number(word[2]);

    begin_steps();
    while (steps.done < count && step_once())
        ;
    report_steps();
}
