#include "calls.h"

#include <inttypes.h>

#include "board.h"
#include "lent.h"
#include "orders.h"
#include "reading.h"
#include "report.h"

#define LIST (const feldrime_phrase *)(const void *)lent[PHRASES].start, count_of(PHRASES)

static void report_answer(const char *call, struct handed handed, feldrime_answer answer, const int *which)
{
    RESULTS("%s", "");
    report(call, handed, 1, answer.refusal, answer.beside, which);
}

void call_page_check(char **word)
{
    (void)word;
    report_answer("page_check", by_numbers(), feldrime_page_check(BYTES(NUMBERS)), of_numbers);
}

feldrime_size page_size(void)
{
    feldrime_size size = feldrime_page_size(BYTES(NUMBERS));

    RESULTS(" lines %" PRIu32 " dots %" PRIu32, size.lines, size.dots);
    report("page_size", by_numbers(), 1, size.refusal, size.beside, of_numbers);
    return size;
}

void call_page_size(char **word)
{
    (void)word;
    page_size();
}

/* A file's version byte and length field, as far as it has them. */
static const char *head_text(void)
{
    static char text[40];
    const uint8_t *file = lent[FILE_BYTES].start;
    size_t count = lent[FILE_BYTES].bytes;

    if (count == 0)
        return "head - -";
    if (count < 5)
        sprintf(text, "head %u -", (unsigned)file[0]);
    else
        sprintf(text, "head %u %" PRIu32, (unsigned)file[0],
                (uint32_t)file[1] << 24 | (uint32_t)file[2] << 16 | (uint32_t)file[3] << 8 | file[4]);
    return text;
}

void call_page_read(char **word)
{
    feldrime_answer answer = feldrime_page_read(BYTES(FILE_BYTES), BYTES(NUMBERS), BYTES(CHARS), BYTES(ATTRS));

    (void)word;
    RESULTS(" %s", head_text());
    report("page_read", by_file(), 1, answer.refusal, answer.beside, of_page_read);
}

void call_page_write(char **word)
{
    (void)word;
    report_answer("page_write", by_numbers(),
                  feldrime_page_write(BYTES(NUMBERS), BYTES(CHARS), BYTES(ATTRS), BYTES(OUT)), of_page_write);
}

void call_font_read(char **word)
{
    feldrime_font_answer answer = feldrime_font_read(BYTES(FILE_BYTES), FONT);

    (void)word;
    RESULTS(" %s groups %" PRIu32, head_text(), answer.groups);
    report("font_read", no_page, 1, answer.refusal, answer.beside, of_font_read);
}

feldrime_answer line_draw(uint32_t line, uint8_t field)
{
    return feldrime_line_draw(BYTES(NUMBERS), BYTES(CHARS), BYTES(ATTRS), FONT, line, field, BYTES(OUT));
}

void call_line_draw(char **word)
{
    feldrime_answer answer = line_draw(number(word[2]), small(word[3]));

    RESULTS("%s", above_text());
    report("line_draw", by_numbers(), 1, answer.refusal, answer.beside, of_drawing);
}

void picture_draw(uint8_t field)
{
    feldrime_answer answer =
        feldrime_picture_draw(BYTES(NUMBERS), BYTES(CHARS), BYTES(ATTRS), FONT, field, BYTES(OUT));

    RESULTS("%s", above_text());
    report("picture_draw", by_numbers(), 1, answer.refusal, answer.beside, of_drawing);
}

void call_picture_draw(char **word)
{
    picture_draw(small(word[2]));
}

void call_row_run(char **word)
{
    feldrime_run run = feldrime_row_run(BYTES(NUMBERS), BYTES(CHARS), number(word[2]));

    RESULTS(" first %" PRIu32 " count %" PRIu32, run.first, run.count);
    report("row_run", by_numbers(), 1, run.refusal, run.beside, of_run);
}

feldrime_cells row_cells(uint32_t row)
{
    return feldrime_row_cells(BYTES(NUMBERS), BYTES(CHARS), row, (uint16_t *)(void *)lent[CELLS].start,
                              count_of(CELLS));
}

void call_row_cells(char **word)
{
    feldrime_cells answer = row_cells(number(word[2]));

    RESULTS(" count %" PRIu32, answer.count);
    report("row_cells", by_numbers(), 1, answer.refusal, answer.beside, of_cells);
}

bool cells_wrap(const uint16_t *cells, uint32_t count)
{
    bool wraps = false;

    for (uint32_t i = 1; i < count && i < FELDRIME_CELLS; i++)
        wraps = wraps || cells[i] != cells[i - 1] + 1;
    return wraps;
}

/* Of which KIND the cells are that a row fetches. */
static const char *kind_of_row(uint32_t row)
{
    static const char *const kinds[2][2] = { { "plain", "wraps" }, { "wide", "wide+wraps" } };
    uint16_t cells[FELDRIME_CELLS];
    feldrime_cells answer = feldrime_row_cells(BYTES(NUMBERS), BYTES(CHARS), row, cells, FELDRIME_CELLS);
    bool wide;

    if (answer.refusal != 0)
        return "-";
    wide = answer.count < lent[NUMBERS].start[6] + 1u;
    return kinds[wide][cells_wrap(cells, answer.count)];
}

void call_phrase_of_row(char **word)
{
    uint32_t row = number(word[2]);
    feldrime_phrase_answer answer = feldrime_phrase_of_row(BYTES(NUMBERS), BYTES(CHARS), LIST, row);

    RESULTS(" found %" PRIu32 " position %zu row %s", answer.found, answer.position, kind_of_row(row));
    report("phrase_of_row", by_numbers(), 1, answer.refusal, answer.beside, of_row_phrase);
}

void call_phrases_differ(char **word)
{
    feldrime_differ_answer answer = feldrime_phrases_differ(LIST);

    (void)word;
    RESULTS(" found %" PRIu32 " earlier %zu later %zu", answer.found, answer.earlier, answer.later);
    report("phrases_differ", no_page, 1, answer.refusal, answer.beside, of_phrases);
}

/* Which page was handed over is asked first: the call changes the numbers. */
uint32_t to_table(void)
{
    struct handed handed = by_numbers();
    feldrime_answer answer = feldrime_to_table(BYTES(NUMBERS), BYTES(CHARS));

    report_answer("to_table", handed, answer, of_run);
    return answer.refusal;
}

uint32_t to_sheet(void)
{
    struct handed handed = by_numbers();
    feldrime_answer answer = feldrime_to_sheet(BYTES(NUMBERS), BYTES(CHARS));

    report_answer("to_sheet", handed, answer, of_run);
    return answer.refusal;
}

void call_to_table(char **word)
{
    (void)word;
    to_table();
}

void call_to_sheet(char **word)
{
    (void)word;
    to_sheet();
}

/* The board becomes the answer's. */
static void report_board(const char *call, struct handed handed, feldrime_board_answer answer, const int *which)
{
    *board = answer.board;
    RESULTS(" board %s", board_text());
    report(call, handed, 1, answer.refusal, answer.beside, which);
}

void call_power(char **word)
{
    (void)word;
    report_board("power", no_page, (feldrime_board_answer){ .board = feldrime_power() }, of_nothing);
}

void call_board_of(char **word)
{
    (void)word;
    report_board("board_of", by_numbers(), feldrime_board_of(BYTES(NUMBERS)), of_numbers);
}

void call_numbers_of(char **word)
{
    feldrime_answer answer = feldrime_numbers_of(*board, BYTES(NUMBERS));

    (void)word;
    RESULTS(" version %u chip %u", (unsigned)board->page.version, (unsigned)board->page.video.chip);
    report("numbers_of", by_board(), 1, answer.refusal, answer.beside, of_numbers);
}

void call_set_video(char **word)
{
    struct handed handed = by_board();

    report_board("set_video", handed,
                 feldrime_set_video(*board, small(word[2]), small(word[3]), small(word[4]), small(word[5])),
                 of_nothing);
}

void call_write(char **word)
{
    struct handed handed = by_board();

    report_board("write", handed, feldrime_register_write(*board, small(word[2]), small(word[3])), of_nothing);
}

void call_read(char **word)
{
    feldrime_byte answer = feldrime_register_read(*board, small(word[2]));

    RESULTS(" byte %" PRIu32 " version %u chip %u", answer.byte, (unsigned)board->page.version,
            (unsigned)board->page.video.chip);
    report("read", by_board(), 1, answer.refusal, answer.beside, of_nothing);
}

void call_state_at(char **word)
{
    struct handed handed = by_board();

    report_board("state_at", handed, feldrime_state_at(*board, BYTES(CHARS), BYTES(ATTRS), number(word[2])),
                 of_memories);
}
