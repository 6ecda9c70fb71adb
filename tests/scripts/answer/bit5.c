#include "bit5.h"

#include <inttypes.h>
#include <stdbool.h>
#include <stdio.h>
#include <string.h>

#include "board.h"
#include "lent.h"
#include "steps.h"

enum { GROUP_NUMBERS = 6, NO_GROUPS = 5, SCAN_LINES = 16, BESIDE = 9 };

/* By the code of the row; which codes were shown on which scan lines, by the line's group; and beside what else. */
static struct {
    uint32_t codes[CODES];
    bool shapes[GROUP_NUMBERS][256 * SCAN_LINES];
    uint32_t beside[BESIDE];
} met;

void clear_bit5(void)
{
    memset(&met, 0, sizeof met);
}

static uint32_t scan_line(uint32_t line, uint8_t code)
{
    uint32_t lines = lines_in_row(), own = line % lines;

    return code < 2 ? own : code == 2 ? own / 2 : (lines + own) / 2;
}

static void count_shape(uint32_t address, uint32_t line)
{
    size_t group = lent[GROUPS].bytes > line ? lent[GROUPS].start[line] : NO_GROUPS;

    met.shapes[group % GROUP_NUMBERS][SCAN_LINES * (size_t)lent[CHARS].start[address] + line % SCAN_LINES] = true;
}

void count_bit5(uint32_t line)
{
    uint32_t address = steps.last.address % FELDRIME_MEMORY, code = board->place.row.code % CODES;
    uint32_t shown = scan_line(line, (uint8_t)code);
    bool field = (board->page.version == 2 || board->page.version == 3) && (board->page.switches & 16) != 0;
    uint8_t own = lent[ATTRS].start[address], valid = field ? board->place.beam.latch : own;
    bool sets = field && (board->page.switches & 32) == 0 && own >= 128;
    const bool beside[BESIDE] = {
        (valid & 1) != 0, (valid & 2) != 0, (valid & 4) != 0,
        (valid & 8) != 0 && shown == (board->page.irs[7] & 15u), (valid & 16) != 0,
        steps.last.cursor != 0, shown == board->page.video.strike, sets, field && own < 128,
    };

    if (steps.last.blank != 0 || (valid & 0xA0) != 0xA0)
        return;
    met.codes[code]++;
    for (int i = 0; i < BESIDE; i++)
        met.beside[i] += beside[i];
    if (!sets)
        count_shape(address, shown);
}

void print_bit5(void)
{
    printf(" bit5");
    for (int code = 0; code < CODES; code++)
        printf(" %" PRIu32, met.codes[code]);
    printf(" shapes");
    for (int group = 0; group < GROUP_NUMBERS; group++) {
        uint32_t count = 0;
        for (size_t i = 0; i < sizeof met.shapes[group]; i++)
            count += met.shapes[group][i];
        printf(" %" PRIu32, count);
    }
    printf(" with");
    for (int i = 0; i < BESIDE; i++)
        printf(" %" PRIu32, met.beside[i]);
}
