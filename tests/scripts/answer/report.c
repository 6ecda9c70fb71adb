#include "report.h"

#include <inttypes.h>
#include <stdbool.h>
#include <stdio.h>

#include "board.h"
#include "lent.h"

const struct handed no_page = { "-", "-" };

static const char *mode_of(uint8_t version, const uint8_t *irs, uint8_t switches, uint8_t chip)
{
    static const char *const modes[2][4] = {
        { "character", "character+graphics", "character+codes", "character+codes+graphics" },
        { "field", "field+graphics", "field+codes", "field+codes+graphics" },
    };
    bool field = (version == 2 || version == 3) && (switches & 16) != 0, graphics = version == 3 && chip == 1;
    bool codes = (irs[0] & 128) != 0, table = (irs[2] & 128) != 0;

    return codes && !table ? "no-table" : modes[field][2 * codes + graphics];
}

struct handed by_board(void)
{
    const char *power = board->resets == 0 ? "inactive-0" : board->resets == 1 ? "inactive-1" : "active";

    return (struct handed){ power, mode_of(board->page.version, board->page.irs, board->page.switches,
                                           board->page.video.chip) };
}

/* By so many bytes that begin with a version and have the IRs at this place, the switches 21 bytes after it, and in
   version 3 the chip three bytes after these. They need not be more than a page's numbers. */
static struct handed by_bytes(const uint8_t *bytes, size_t count, size_t irs)
{
    uint8_t version = count == 0 ? 0 : bytes[0], chip;

    if (version < 1 || version > 3 || count < irs + (version == 3 ? 25 : 24))
        return no_page;
    chip = version == 3 ? bytes[irs + 24] : 0;
    return (struct handed){ "-", mode_of(version, bytes + irs, bytes[irs + 21], chip) };
}

struct handed by_numbers(void)
{
    return lent[NUMBERS].bytes == FELDRIME_NUMBERS ? by_bytes(BYTES(NUMBERS), 1) : no_page;
}

struct handed by_file(void)
{
    return by_bytes(BYTES(FILE_BYTES), 5);
}

char results[512];

const char *above_text(void)
{
    static char text[40];

    for (size_t i = 0; i < lent[GROUPS].bytes; i++)
        if (lent[GROUPS].start[i] > 4) {
            sprintf(text, " above %zu", i);
            return text;
        }
    return " above -";
}

const int of_nothing[] = { ALL };
const int of_numbers[] = { NUMBERS, ALL };
const int of_run[] = { NUMBERS, CHARS, ALL }; /* and of the moves */
const int of_cells[] = { NUMBERS, CHARS, CELLS, ALL };
const int of_row_phrase[] = { NUMBERS, CHARS, PHRASES, ALL };
const int of_phrases[] = { PHRASES, ALL };
const int of_memories[] = { CHARS, ATTRS, ALL };
const int of_step[] = { CHARS, ATTRS, WORDS, FLAGS, UNSHIFTED, SHIFTED, GROUPS, ALL };
const int of_drawing[] = { NUMBERS, CHARS, ATTRS, WORDS, FLAGS, UNSHIFTED, SHIFTED, GROUPS, OUT, ALL };
const int of_page_read[] = { FILE_BYTES, NUMBERS, CHARS, ATTRS, ALL };
const int of_page_write[] = { NUMBERS, CHARS, ATTRS, OUT, ALL };
const int of_font_read[] = { FILE_BYTES, WORDS, FLAGS, UNSHIFTED, SHIFTED, GROUPS, ALL };

static void check_guards(void)
{
    for (int which = 0; which < ALL; which++)
        if (!guards_stand(which))
            printf("guard of %s disturbed\n", names[which]);
}

void report(const char *call, struct handed handed, uint32_t count, uint32_t refusal, uint32_t beside,
            const int *which)
{
    printf("%s %s %s %" PRIu32 " %" PRIu32 " %" PRIu32 "%s", call, handed.power, handed.mode, count, refusal, beside,
           results);
    for (; *which != ALL; which++)
        printf(" %s %zu %016" PRIx64, names[*which], count_of(*which), sum_of(*which));
    printf("\n");
    check_guards();
}
