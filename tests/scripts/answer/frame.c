/* A whole frame by steps, by lines, as a picture, and by its rows' cells. */
#include <inttypes.h>
#include <stdbool.h>
#include <stdio.h>
#include <stdlib.h>
#include <string.h>

#include "bit5.h"
#include "board.h"
#include "calls.h"
#include "fail.h"
#include "lent.h"
#include "orders.h"
#include "report.h"
#include "steps.h"
#include "sums.h"

enum { LONGEST_FRAME = 826752, MOST_ROWS = 128 };

/* What the steps showed on the active clocks, line by line; and what they met, counted by the code of the row. */
static struct {
    feldrime_size size;
    uint32_t columns;
    uint8_t *dots;
    uint16_t *addresses;
    uint8_t codes[MOST_ROWS];
    uint32_t rows[CODES], wrapped[CODES], cursor[CODES], latched[CODES];
} frame;

/* A step that began on an active clock of this line, with this byte latched. */
static void count_step(uint64_t line, uint64_t clock, uint8_t latch)
{
    uint8_t code = board->place.row.code % CODES;

    if (clock == 0 && line % lines_in_row() == 0) {
        frame.codes[line / lines_in_row() % MOST_ROWS] = code;
        frame.rows[code]++;
    }
    frame.cursor[code] += steps.last.cursor;
    frame.latched[code] += clock != 0 && latch != board->place.beam.latch;
}

static void frame_by_steps(void)
{
    begin_steps();
    do {
        uint64_t line = board->place.line, clock = board->place.clock, dots = board->page.video.dots;
        uint8_t latch = board->place.beam.latch;
        if (!step_once())
            break;
        if (line < frame.size.lines && clock < frame.columns && (clock + 1) * dots <= frame.size.dots
            && dots <= sizeof steps.last.dots) {
            memcpy(frame.dots + line * frame.size.dots + clock * dots, steps.last.dots, dots);
            frame.addresses[line * frame.columns + clock] = (uint16_t)steps.last.address;
            count_step(line, clock, latch);
            count_bit5((uint32_t)line);
        }
    } while ((board->place.line != 0 || board->place.clock != 0) && steps.done != LONGEST_FRAME);
    report_steps();
}

/* True where each line is as the steps showed it. */
static bool frame_by_lines(uint8_t field)
{
    feldrime_answer answer = { 0, 0 };
    uint64_t sum = sum_start;
    uint32_t done = 0, dots = frame.size.dots;
    bool same = true;

    fill(OUT, dots, 0);
    while (done < frame.size.lines && (answer = line_draw(done, field)).refusal == 0) {
        for (uint32_t i = 0; i < dots; i++)
            sum = add(sum, lent[OUT].start[i]);
        same = same && memcmp(lent[OUT].start, frame.dots + (size_t)done * dots, dots) == 0;
        done++;
    }
    RESULTS(" sum %016" PRIx64 "%s", sum, above_text());
    report("line_draw", by_numbers(), answer.refusal == 0 ? done : 1, answer.refusal, answer.beside, of_drawing);
    return same && done == frame.size.lines;
}

/* True where the picture is as the steps showed it. */
static bool frame_as_picture(uint8_t field)
{
    size_t size = (size_t)frame.size.lines * frame.size.dots;

    fill(OUT, size, 0);
    picture_draw(field);
    return memcmp(lent[OUT].start, frame.dots, size) == 0;
}

/* True where the steps showed these cells on each line of the row: each on one column, or on two where they are half as
   many. */
static bool row_was_fetched(uint32_t row, uint32_t lines, uint32_t count)
{
    uint32_t each = count == frame.columns ? 1 : 2;
    bool same = count == (frame.columns + each - 1) / each;

    for (uint32_t line = row * lines; same && line < (row + 1) * lines; line++)
        for (uint32_t column = 0; same && column < frame.columns; column++)
            same = number_at(CELLS, column / each) == frame.addresses[(size_t)line * frame.columns + column];
    return same;
}

static void count_row(uint32_t row, uint32_t count)
{
    frame.wrapped[frame.codes[row % MOST_ROWS]] += cells_wrap((const uint16_t *)(const void *)lent[CELLS].start, count);
}

static bool frame_by_rows(void)
{
    feldrime_cells answer = { 0, 0, 0 };
    uint32_t rows = (lent[NUMBERS].start[5] & 127u) + 1, done = 0;
    uint64_t sum = sum_start;
    bool same = true;

    fill(CELLS, FELDRIME_CELLS, 1);
    while (done < rows && (answer = row_cells(done)).refusal == 0) {
        for (uint32_t i = 0; i < answer.count && i < FELDRIME_CELLS; i++)
            sum = add(sum, number_at(CELLS, i));
        same = same && row_was_fetched(done, frame.size.lines / rows, answer.count);
        count_row(done, answer.count);
        done++;
    }
    RESULTS(" sum %016" PRIx64, sum);
    report("row_cells", by_numbers(), answer.refusal == 0 ? done : 1, answer.refusal, answer.beside, of_cells);
    return same && done == rows;
}

static void print_counts(const char *name, const uint32_t counts[CODES])
{
    printf(" %s", name);
    for (int code = 0; code < CODES; code++)
        printf(" %" PRIu32, counts[code]);
}

static void report_frame(bool agree)
{
    printf("frame %" PRIu32 " %s %s dots %" PRIu32 " columns %" PRIu32 " lines %" PRIu32, steps.done,
           agree ? "agree" : "differ", by_board().mode, board->page.video.dots, columns_of_page(), lines_in_row());
    print_counts("rows", frame.rows);
    print_counts("wrapped", frame.wrapped);
    print_counts("cursor", frame.cursor);
    print_counts("latched", frame.latched);
    print_bit5();
    printf("\n");
}

void do_frame(char **word)
{
    uint8_t field = board->place.field;
    bool lines, picture, rows;

    (void)word;
    memset(&frame, 0, sizeof frame);
    clear_bit5();
    frame.size = page_size();
    if (frame.size.refusal != 0)
        return;
    frame.columns = lent[NUMBERS].start[6] + 1u;
    frame.dots = calloc((size_t)frame.size.lines + 1, (size_t)frame.size.dots + 1);
    frame.addresses = calloc((size_t)frame.size.lines + 1, ((size_t)frame.columns + 1) * sizeof *frame.addresses);
    if (frame.dots == NULL || frame.addresses == NULL)
        fail("no memory for a picture");
    frame_by_steps();
    lines = frame_by_lines(field);
    picture = frame_as_picture(field);
    rows = frame_by_rows();
    report_frame(lines && picture && rows);
    free(frame.dots);
    free(frame.addresses);
}
