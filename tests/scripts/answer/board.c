#include "board.h"

#include <inttypes.h>
#include <stdio.h>
#include <string.h>

#include "fail.h"
#include "lent.h"
#include "orders.h"
#include "reading.h"

enum { BOARD_BYTES = 47 };

feldrime_board *board;
static feldrime_board given;

void lend_board(void)
{
    allocate(BOARD, sizeof *board);
    board = (feldrime_board *)(void *)lent[BOARD].start;
}

void clear_board(void)
{
    memset(&given, 0, sizeof given);
    *board = given;
}

static uint32_t next_bytes(const uint8_t **from, size_t bytes)
{
    uint32_t value = 0;

    for (size_t i = 0; i < bytes; i++)
        value = value << 8 | *(*from)++;
    return value;
}

/* Unused bytes between the fields are left at A5 hex. */
static feldrime_board unpacked(const uint8_t *from)
{
    feldrime_board b;

    memset(&b, 0xA5, sizeof b);
    b.page.version = (uint8_t)next_bytes(&from, 1);
    memcpy(b.page.irs, from, sizeof b.page.irs);
    from += sizeof b.page.irs;
    b.page.starts.start1 = (uint16_t)next_bytes(&from, 2);
    b.page.starts.cursor = (uint16_t)next_bytes(&from, 2);
    b.page.starts.start2 = (uint16_t)next_bytes(&from, 2);
    b.page.switches = (uint8_t)next_bytes(&from, 1);
    b.page.video.dots = next_bytes(&from, 4);
    b.page.video.strike = (uint8_t)next_bytes(&from, 1);
    b.page.video.chip = (uint8_t)next_bytes(&from, 1);
    b.place.field = (uint8_t)next_bytes(&from, 1);
    b.place.line = next_bytes(&from, 4);
    b.place.clock = next_bytes(&from, 4);
    b.place.beam.address = (uint16_t)next_bytes(&from, 2);
    b.place.beam.latch = (uint8_t)next_bytes(&from, 1);
    b.place.row.address = (uint16_t)next_bytes(&from, 2);
    b.place.row.latch = (uint8_t)next_bytes(&from, 1);
    b.place.row.code = (uint8_t)next_bytes(&from, 1);
    b.pointer = (uint8_t)next_bytes(&from, 1);
    b.resets = (uint8_t)next_bytes(&from, 1);
    return b;
}

const char *board_text(void)
{
    static char text[2 * BOARD_BYTES + 1];
    char *at = text;

    at += sprintf(at, "%02x", (unsigned)board->page.version);
    for (size_t i = 0; i < sizeof board->page.irs; i++)
        at += sprintf(at, "%02x", (unsigned)board->page.irs[i]);
    at += sprintf(at, "%04x%04x%04x%02x", (unsigned)board->page.starts.start1, (unsigned)board->page.starts.cursor,
                  (unsigned)board->page.starts.start2, (unsigned)board->page.switches);
    at += sprintf(at, "%08" PRIx32 "%02x%02x%02x", board->page.video.dots, (unsigned)board->page.video.strike,
                  (unsigned)board->page.video.chip, (unsigned)board->place.field);
    at += sprintf(at, "%08" PRIx32 "%08" PRIx32, board->place.line, board->place.clock);
    at += sprintf(at, "%04x%02x%04x%02x%02x", (unsigned)board->place.beam.address, (unsigned)board->place.beam.latch,
                  (unsigned)board->place.row.address, (unsigned)board->place.row.latch,
                  (unsigned)board->place.row.code);
    sprintf(at, "%02x%02x", (unsigned)board->pointer, (unsigned)board->resets);
    return text;
}

void do_board(char **word)
{
    uint8_t packed[BOARD_BYTES];

    if (strlen(word[1]) != 2 * BOARD_BYTES)
        fail("a board has 94 hex digits");
    for (size_t i = 0; i < BOARD_BYTES; i++)
        packed[i] = (uint8_t)hex_digits(word[1] + 2 * i, 2);
    given = unpacked(packed);
    *board = given;
}

void do_board_again(char **word)
{
    (void)word;
    *board = given;
}
