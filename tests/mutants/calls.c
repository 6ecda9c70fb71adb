/* Wrong versions of the calls for C, one for each #ifdef. tests/mutants/run links each in the library's place with the
   program that answers the scripts of tests/compare. A comment above gives its name, its call and what is wrong. */
#include <stdlib.h>
#include <string.h>

#include "feldrime.h"

#define NUMBERS const uint8_t *numbers, size_t numbers_count
#define CHARS const uint8_t *chars, size_t chars_count
#define ATTRS const uint8_t *attrs, size_t attrs_count
#define FONT                                                                                                           \
    const uint16_t *words, size_t words_count, const uint8_t *flags, size_t flags_count, const uint8_t *unshifted,     \
        size_t unshifted_count, const uint8_t *shifted, size_t shifted_count, const uint8_t *groups,                   \
        size_t groups_count
#define PARTS                                                                                                          \
    const uint8_t *file, size_t file_count, uint16_t *words, size_t words_count, uint8_t *flags, size_t flags_count,   \
        uint8_t *unshifted, size_t unshifted_count, uint8_t *shifted, size_t shifted_count, uint8_t *groups,           \
        size_t groups_count
#define OUT uint8_t *out, size_t out_count
#define N numbers, numbers_count
#define C chars, chars_count
#define A attrs, attrs_count
#define SHAPES words, words_count, flags, flags_count, unshifted, unshifted_count, shifted, shifted_count
#define F SHAPES, groups, groups_count
#define O out, out_count
#define WRONG(result, call, parameters)                                                                                \
    result __real_##call parameters;                                                                                   \
    result __wrap_##call parameters;                                                                                   \
    result __wrap_##call parameters

/* beside_lost, feldrime_page_check: no number stands beside 14 and 15 */
#ifdef beside_lost
WRONG(feldrime_answer, feldrime_page_check, (NUMBERS))
{
    feldrime_answer answer = __real_feldrime_page_check(N);
    answer.beside = 0;
    return answer;
}
#endif

/* any_version, feldrime_page_check: version 4 is taken for version 3 */
#ifdef any_version
WRONG(feldrime_answer, feldrime_page_check, (NUMBERS))
{
    uint8_t copy[FELDRIME_NUMBERS];
    if (numbers_count != sizeof copy)
        return __real_feldrime_page_check(N);
    memcpy(copy, numbers, sizeof copy);
    copy[0] = copy[0] == 4 ? 3 : copy[0];
    return __real_feldrime_page_check(copy, sizeof copy);
}
#endif

/* any_chip, feldrime_page_check: a chip above 1 is taken for B */
#ifdef any_chip
WRONG(feldrime_answer, feldrime_page_check, (NUMBERS))
{
    uint8_t copy[FELDRIME_NUMBERS];
    if (numbers_count != sizeof copy)
        return __real_feldrime_page_check(N);
    memcpy(copy, numbers, sizeof copy);
    copy[25] = copy[25] > 1 ? 1 : copy[25];
    return __real_feldrime_page_check(copy, sizeof copy);
}
#endif

/* dots_of_a_cell, feldrime_page_size: the dots of a cell, and not of a line */
#ifdef dots_of_a_cell
WRONG(feldrime_size, feldrime_page_size, (NUMBERS))
{
    feldrime_size size = __real_feldrime_page_size(N);
    if (size.refusal == 0)
        size.dots /= numbers[6] + 1u;
    return size;
}
#endif

/* touched_though_refused, feldrime_page_read: a refused read clears the numbers */
#ifdef touched_though_refused
WRONG(feldrime_answer, feldrime_page_read, (const uint8_t *file, size_t file_count, uint8_t *numbers,
    size_t numbers_count, uint8_t *chars, size_t chars_count, uint8_t *attrs, size_t attrs_count))
{
    feldrime_answer answer = __real_feldrime_page_read(file, file_count, N, C, A);
    if (answer.refusal != 0 && numbers_count != 0)
        memset(numbers, 0, numbers_count);
    return answer;
}
#endif

/* memories_swapped, feldrime_page_read: each memory is read into the other */
#ifdef memories_swapped
WRONG(feldrime_answer, feldrime_page_read, (const uint8_t *file, size_t file_count, uint8_t *numbers,
    size_t numbers_count, uint8_t *chars, size_t chars_count, uint8_t *attrs, size_t attrs_count))
{
    return __real_feldrime_page_read(file, file_count, N, A, C);
}
#endif

/* version_lost, feldrime_page_read: a page of version 2 is read as version 1 */
#ifdef version_lost
WRONG(feldrime_answer, feldrime_page_read, (const uint8_t *file, size_t file_count, uint8_t *numbers,
    size_t numbers_count, uint8_t *chars, size_t chars_count, uint8_t *attrs, size_t attrs_count))
{
    feldrime_answer answer = __real_feldrime_page_read(file, file_count, N, C, A);
    if (answer.refusal == 0)
        numbers[0] = 1;
    return answer;
}
#endif

/* chip_lost, feldrime_page_read: a page of chip B is read as one of chip A */
#ifdef chip_lost
WRONG(feldrime_answer, feldrime_page_read, (const uint8_t *file, size_t file_count, uint8_t *numbers,
    size_t numbers_count, uint8_t *chars, size_t chars_count, uint8_t *attrs, size_t attrs_count))
{
    feldrime_answer answer = __real_feldrime_page_read(file, file_count, N, C, A);
    if (answer.refusal == 0)
        numbers[25] = 0;
    return answer;
}
#endif

/* room_for_version_3, feldrime_page_write: a page of version 1 or 2 is refused where one of version 3 has no room */
#ifdef room_for_version_3
WRONG(feldrime_answer, feldrime_page_write, (NUMBERS, CHARS, ATTRS, OUT))
{
    if (out_count == FELDRIME_PAGE_FILE - 1)
        return (feldrime_answer){3, 0};
    return __real_feldrime_page_write(N, C, A, O);
}
#endif

/* cleared_beyond, feldrime_page_write: a byte beyond the file is cleared */
#ifdef cleared_beyond
WRONG(feldrime_answer, feldrime_page_write, (NUMBERS, CHARS, ATTRS, OUT))
{
    feldrime_answer answer = __real_feldrime_page_write(N, C, A, O);
    if (answer.refusal == 0 && out_count > feldrime_page_bytes(numbers[0]))
        out[feldrime_page_bytes(numbers[0])] = 0;
    return answer;
}
#endif

/* one_byte_more, feldrime_font_read: a font file with a byte behind it is taken */
#ifdef one_byte_more
WRONG(feldrime_font_answer, feldrime_font_read, (PARTS))
{
    size_t size = file_count == 0 ? 0 : feldrime_font_bytes(file[0]);
    return __real_feldrime_font_read(file, size != 0 && file_count == size + 1 ? size : file_count, F);
}
#endif

/* groups_cleared, feldrime_font_read: a font of version 1 clears the groups that it was lent */
#ifdef groups_cleared
WRONG(feldrime_font_answer, feldrime_font_read, (PARTS))
{
    feldrime_font_answer answer = __real_feldrime_font_read(file, file_count, F);
    if (answer.refusal == 0 && answer.groups == 0 && groups_count != 0)
        memset(groups, 0, groups_count);
    return answer;
}
#endif

/* groups_not_counted, feldrime_font_read: the answer has no groups */
#ifdef groups_not_counted
WRONG(feldrime_font_answer, feldrime_font_read, (PARTS))
{
    feldrime_font_answer answer = __real_feldrime_font_read(file, file_count, F);
    answer.groups = 0;
    return answer;
}
#endif

/* lists_swapped, feldrime_font_read: each list of lines is read into the other */
#ifdef lists_swapped
WRONG(feldrime_font_answer, feldrime_font_read, (PARTS))
{
    return __real_feldrime_font_read(file, file_count, words, words_count, flags, flags_count, shifted, shifted_count,
                                     unshifted, unshifted_count, groups, groups_count);
}
#endif

/* field_0, feldrime_line_draw: every line is drawn as in field 0 */
#ifdef field_0
WRONG(feldrime_answer, feldrime_line_draw, (NUMBERS, CHARS, ATTRS, FONT, uint32_t line, uint8_t field, OUT))
{
    (void)field;
    return __real_feldrime_line_draw(N, C, A, F, line, 0, O);
}
#endif

/* line_0_repeated, feldrime_line_draw: line 0 for every line */
#ifdef line_0_repeated
WRONG(feldrime_answer, feldrime_line_draw, (NUMBERS, CHARS, ATTRS, FONT, uint32_t line, uint8_t field, OUT))
{
    feldrime_answer answer = __real_feldrime_line_draw(N, C, A, F, line, field, O);
    return answer.refusal != 0 ? answer : __real_feldrime_line_draw(N, C, A, F, 0, field, O);
}
#endif

/* last_dot_black, feldrime_line_draw: a line's last dot is black */
#ifdef last_dot_black
WRONG(feldrime_answer, feldrime_line_draw, (NUMBERS, CHARS, ATTRS, FONT, uint32_t line, uint8_t field, OUT))
{
    feldrime_answer answer = __real_feldrime_line_draw(N, C, A, F, line, field, O);
    if (answer.refusal == 0)
        out[feldrime_page_size(N).dots - 1] = 0;
    return answer;
}
#endif

/* eight_first, feldrime_line_draw: no room is refused before the page is looked at */
#ifdef eight_first
WRONG(feldrime_answer, feldrime_line_draw, (NUMBERS, CHARS, ATTRS, FONT, uint32_t line, uint8_t field, OUT))
{
    feldrime_answer answer = __real_feldrime_line_draw(N, C, A, F, line, field, O);
    if (answer.refusal != 0 && out_count == 0)
        answer.refusal = 8, answer.beside = 0;
    return answer;
}
#endif

/* groups_not_lent, feldrime_line_draw: a line is drawn by a font without groups */
#ifdef groups_not_lent
WRONG(feldrime_answer, feldrime_line_draw, (NUMBERS, CHARS, ATTRS, FONT, uint32_t line, uint8_t field, OUT))
{
    feldrime_answer answer = __real_feldrime_line_draw(N, C, A, F, line, field, O);
    return answer.refusal != 0 ? answer : __real_feldrime_line_draw(N, C, A, SHAPES, NULL, 0, line, field, O);
}
#endif

/* any_group, feldrime_picture_draw: a group above 4 is taken for none */
#ifdef any_group
WRONG(feldrime_answer, feldrime_picture_draw, (NUMBERS, CHARS, ATTRS, FONT, uint8_t field, OUT))
{
    uint8_t copy[FELDRIME_GROUPS];
    if (groups_count != sizeof copy)
        return __real_feldrime_picture_draw(N, C, A, F, field, O);
    for (size_t i = 0; i < sizeof copy; i++)
        copy[i] = groups[i] > 4 ? 0 : groups[i];
    return __real_feldrime_picture_draw(N, C, A, SHAPES, copy, sizeof copy, field, O);
}
#endif

/* groups_turned_round, feldrime_picture_draw: scan line 0 has the group of scan line 15 */
#ifdef groups_turned_round
WRONG(feldrime_answer, feldrime_picture_draw, (NUMBERS, CHARS, ATTRS, FONT, uint8_t field, OUT))
{
    uint8_t copy[FELDRIME_GROUPS];
    if (groups_count != sizeof copy)
        return __real_feldrime_picture_draw(N, C, A, F, field, O);
    for (size_t i = 0; i < sizeof copy; i++)
        copy[i] = groups[sizeof copy - 1 - i];
    return __real_feldrime_picture_draw(N, C, A, SHAPES, copy, sizeof copy, field, O);
}
#endif

/* lines_exchanged, feldrime_picture_draw: the first two lines in the other order */
#ifdef lines_exchanged
WRONG(feldrime_answer, feldrime_picture_draw, (NUMBERS, CHARS, ATTRS, FONT, uint8_t field, OUT))
{
    feldrime_answer answer = __real_feldrime_picture_draw(N, C, A, F, field, O);
    feldrime_size size = feldrime_page_size(N);
    for (uint32_t i = 0; answer.refusal == 0 && size.lines > 1 && i < size.dots; i++) {
        uint8_t dot = out[i];
        out[i] = out[size.dots + i];
        out[size.dots + i] = dot;
    }
    return answer;
}
#endif

/* first_dot_though_refused, feldrime_picture_draw: a refused picture has a first dot */
#ifdef first_dot_though_refused
WRONG(feldrime_answer, feldrime_picture_draw, (NUMBERS, CHARS, ATTRS, FONT, uint8_t field, OUT))
{
    feldrime_answer answer = __real_feldrime_picture_draw(N, C, A, F, field, O);
    if (answer.refusal != 0 && out_count != 0)
        out[0] ^= 1;
    return answer;
}
#endif

/* any_room, feldrime_picture_draw: a buffer with one byte too little is taken, and the last dot left out */
#ifdef any_room
WRONG(feldrime_answer, feldrime_picture_draw, (NUMBERS, CHARS, ATTRS, FONT, uint8_t field, OUT))
{
    feldrime_answer answer = __real_feldrime_picture_draw(N, C, A, F, field, O);
    uint8_t *room = malloc(out_count + 1);
    if (answer.refusal == 8 && __real_feldrime_picture_draw(N, C, A, F, field, room, out_count + 1).refusal == 0) {
        memcpy(out, room, out_count);
        answer.refusal = 0;
    }
    free(room);
    return answer;
}
#endif

/* run_round_the_end, feldrime_row_run: a run counts all cells that the row fetches */
#ifdef run_round_the_end
WRONG(feldrime_run, feldrime_row_run, (NUMBERS, CHARS, uint32_t row))
{
    uint16_t cells[FELDRIME_CELLS];
    feldrime_run run = __real_feldrime_row_run(N, C, row);
    if (run.refusal == 0)
        run.count = feldrime_row_cells(N, C, row, cells, FELDRIME_CELLS).count;
    return run;
}
#endif

/* cells_cut, feldrime_row_cells: only the cells of the row's first run are counted */
#ifdef cells_cut
WRONG(feldrime_cells, feldrime_row_cells, (NUMBERS, CHARS, uint32_t row, uint16_t *cells, size_t cells_count))
{
    feldrime_cells given = __real_feldrime_row_cells(N, C, row, cells, cells_count);
    if (given.refusal == 0)
        given.count = feldrime_row_run(N, C, row).count;
    return given;
}
#endif

/* room_of_255, feldrime_row_cells: 255 elements are enough */
#ifdef room_of_255
WRONG(feldrime_cells, feldrime_row_cells, (NUMBERS, CHARS, uint32_t row, uint16_t *cells, size_t cells_count))
{
    uint16_t room[FELDRIME_CELLS];
    feldrime_cells given = __real_feldrime_row_cells(N, C, row, cells, cells_count);
    if (given.refusal == 3 && cells_count == FELDRIME_CELLS - 1) {
        given = __real_feldrime_row_cells(N, C, row, room, FELDRIME_CELLS);
        memcpy(cells, room, given.refusal == 0 ? given.count * sizeof *cells : 0);
    }
    return given;
}
#endif

/* cell_beyond, feldrime_row_cells: the element behind the row's cells is cleared */
#ifdef cell_beyond
WRONG(feldrime_cells, feldrime_row_cells, (NUMBERS, CHARS, uint32_t row, uint16_t *cells, size_t cells_count))
{
    feldrime_cells given = __real_feldrime_row_cells(N, C, row, cells, cells_count);
    if (given.refusal == 0 && given.count < cells_count)
        cells[given.count] = 0;
    return given;
}
#endif

/* table_high_first, feldrime_to_table: row 0's entry has its high byte first */
#ifdef table_high_first
WRONG(feldrime_answer, feldrime_to_table, (uint8_t *numbers, size_t numbers_count, uint8_t *chars, size_t chars_count))
{
    feldrime_answer answer = __real_feldrime_to_table(N, C);
    if (answer.refusal == 0) {
        uint8_t *entry = chars + (numbers[20] << 8 | numbers[21]);
        uint8_t low = entry[0];
        entry[0] = entry[1], entry[1] = low;
    }
    return answer;
}
#endif

/* upper_bits_set, feldrime_to_table: an entry's upper bits are set */
#ifdef upper_bits_set
WRONG(feldrime_answer, feldrime_to_table, (uint8_t *numbers, size_t numbers_count, uint8_t *chars, size_t chars_count))
{
    feldrime_answer answer = __real_feldrime_to_table(N, C);
    if (answer.refusal == 0)
        chars[(numbers[20] << 8 | numbers[21]) + 1] |= 0x40;
    return answer;
}
#endif

/* table_off, feldrime_to_table: IR2[7] is not set */
#ifdef table_off
WRONG(feldrime_answer, feldrime_to_table, (uint8_t *numbers, size_t numbers_count, uint8_t *chars, size_t chars_count))
{
    feldrime_answer answer = __real_feldrime_to_table(N, C);
    if (answer.refusal == 0)
        numbers[3] &= 0x7F;
    return answer;
}
#endif

/* start_kept, feldrime_to_sheet: screen start 1 stays as it was */
#ifdef start_kept
WRONG(feldrime_answer, feldrime_to_sheet, (uint8_t *numbers, size_t numbers_count, const uint8_t *chars,
    size_t chars_count))
{
    uint8_t start[2] = {numbers_count > 17 ? numbers[16] : 0, numbers_count > 17 ? numbers[17] : 0};
    feldrime_answer answer = __real_feldrime_to_sheet(N, C);
    if (answer.refusal == 0)
        memcpy(numbers + 16, start, 2);
    return answer;
}
#endif

/* unused_cleared, feldrime_to_sheet: the bytes that are ignored are cleared */
#ifdef unused_cleared
WRONG(feldrime_answer, feldrime_to_sheet, (uint8_t *numbers, size_t numbers_count, const uint8_t *chars,
    size_t chars_count))
{
    feldrime_answer answer = __real_feldrime_to_sheet(N, C);
    if (answer.refusal == 0)
        memset(numbers + 26, 0, 6);
    return answer;
}
#endif

/* last_record, feldrime_phrase_of_row: the last record that holds the row, and not the lowest */
#ifdef last_record
WRONG(feldrime_phrase_answer, feldrime_phrase_of_row, (NUMBERS, CHARS, const feldrime_phrase *phrases,
    size_t phrases_count, uint32_t row))
{
    feldrime_phrase_answer found = __real_feldrime_phrase_of_row(N, C, phrases, phrases_count, row);
    for (size_t i = phrases_count; found.refusal == 0 && found.found && i-- > 0;) {
        if (__real_feldrime_phrase_of_row(N, C, phrases + i, 1, row).found) {
            found.position = i;
            break;
        }
    }
    return found;
}
#endif

/* held_before_20, feldrime_phrase_of_row: a bad record behind one that holds the row is not refused */
#ifdef held_before_20
WRONG(feldrime_phrase_answer, feldrime_phrase_of_row, (NUMBERS, CHARS, const feldrime_phrase *phrases,
    size_t phrases_count, uint32_t row))
{
    feldrime_phrase_answer found = __real_feldrime_phrase_of_row(N, C, phrases, phrases_count, row);
    return found.refusal == 20 ? __real_feldrime_phrase_of_row(N, C, phrases, found.position, row) : found;
}
#endif

/* language_ignored, feldrime_phrases_differ: records of two languages are compared */
#ifdef language_ignored
WRONG(feldrime_differ_answer, feldrime_phrases_differ, (const feldrime_phrase *phrases, size_t phrases_count))
{
    feldrime_phrase *copy = malloc((phrases_count + 1) * sizeof *copy);
    for (size_t i = 0; i < phrases_count; i++) {
        copy[i] = phrases[i];
        copy[i].language = 0;
    }
    feldrime_differ_answer pair = __real_feldrime_phrases_differ(copy, phrases_count);
    free(copy);
    return pair;
}
#endif

/* power_active, feldrime_power: the board after power is active */
#ifdef power_active
WRONG(feldrime_board, feldrime_power, (void))
{
    feldrime_board board = __real_feldrime_power();
    board.resets = 2;
    return board;
}
#endif

/* board_inactive, feldrime_board_of: the board of a page is inactive */
#ifdef board_inactive
WRONG(feldrime_board_answer, feldrime_board_of, (NUMBERS))
{
    feldrime_board_answer answer = __real_feldrime_board_of(N);
    answer.board.resets = 0;
    return answer;
}
#endif

/* cursor_lost, feldrime_numbers_of: a saved board loses its cursor address */
#ifdef cursor_lost
WRONG(feldrime_answer, feldrime_numbers_of, (feldrime_board board, uint8_t *numbers, size_t numbers_count))
{
    board.page.starts.cursor = 0;
    return __real_feldrime_numbers_of(board, N);
}
#endif

/* display_by_power, feldrime_numbers_of: an inactive board is saved with its display off */
#ifdef display_by_power
WRONG(feldrime_answer, feldrime_numbers_of, (feldrime_board board, uint8_t *numbers, size_t numbers_count))
{
    if (board.resets < 2)
        board.page.switches &= 0xFE;
    return __real_feldrime_numbers_of(board, N);
}
#endif

/* one_is_on, feldrime_set_video: only 1 is on */
#ifdef one_is_on
WRONG(feldrime_board_answer, feldrime_set_video, (feldrime_board board, uint8_t dots, uint8_t strike, uint8_t bkgnd,
    uint8_t rblank))
{
    return __real_feldrime_set_video(board, dots, strike, bkgnd == 1, rblank == 1);
}
#endif

/* field_mode_lost, feldrime_set_video: switches 4 and 5 are lost */
#ifdef field_mode_lost
WRONG(feldrime_board_answer, feldrime_set_video, (feldrime_board board, uint8_t dots, uint8_t strike, uint8_t bkgnd,
    uint8_t rblank))
{
    feldrime_board_answer answer = __real_feldrime_set_video(board, dots, strike, bkgnd, rblank);
    if (answer.refusal == 0)
        answer.board.page.switches &= 0x0F;
    return answer;
}
#endif

/* chip_cleared, feldrime_set_video: a board that is not of version 3 loses its chip byte */
#ifdef chip_cleared
WRONG(feldrime_board_answer, feldrime_set_video, (feldrime_board board, uint8_t dots, uint8_t strike, uint8_t bkgnd,
    uint8_t rblank))
{
    feldrime_board_answer answer = __real_feldrime_set_video(board, dots, strike, bkgnd, rblank);
    if (answer.refusal == 0 && answer.board.page.version != 3)
        answer.board.page.video.chip = 0;
    return answer;
}
#endif

/* reset_keeps_the_cursor, feldrime_register_write: a master reset leaves the cursor on */
#ifdef reset_keeps_the_cursor
WRONG(feldrime_board_answer, feldrime_register_write, (feldrime_board board, uint8_t address, uint8_t byte))
{
    feldrime_board_answer answer = __real_feldrime_register_write(board, address, byte);
    if (answer.refusal == 0 && address == 1 && byte == 0)
        answer.board.page.switches |= board.page.switches & 2;
    return answer;
}
#endif

/* refusal_ends_the_run, feldrime_register_write: a refused write ends the run of resets */
#ifdef refusal_ends_the_run
WRONG(feldrime_board_answer, feldrime_register_write, (feldrime_board board, uint8_t address, uint8_t byte))
{
    feldrime_board_answer answer = __real_feldrime_register_write(board, address, byte);
    if (answer.refusal != 0 && answer.board.resets == 1)
        answer.board.resets = 0;
    return answer;
}
#endif

/* pointer_runs_on, feldrime_register_write: the pointer goes past IR14 */
#ifdef pointer_runs_on
WRONG(feldrime_board_answer, feldrime_register_write, (feldrime_board board, uint8_t address, uint8_t byte))
{
    feldrime_board_answer answer = __real_feldrime_register_write(board, address, byte);
    if (answer.refusal == 0 && address == 0 && board.pointer == 14 && board.resets > 1)
        answer.board.pointer = 15;
    return answer;
}
#endif

/* read_at_0, feldrime_register_read: a read at 0 gives the pointed register */
#ifdef read_at_0
WRONG(feldrime_byte, feldrime_register_read, (feldrime_board board, uint8_t address))
{
    feldrime_byte answer = __real_feldrime_register_read(board, address);
    if (answer.refusal == 0 && address == 0)
        answer.byte = board.page.irs[board.pointer];
    return answer;
}
#endif

/* from_the_place, feldrime_state_at: the field goes on from the board's own */
#ifdef from_the_place
WRONG(feldrime_board_answer, feldrime_state_at, (feldrime_board board, CHARS, ATTRS, uint32_t n))
{
    feldrime_board_answer answer = __real_feldrime_state_at(board, C, A, n);
    if (answer.refusal == 0)
        answer.board.place.field = (uint8_t)(answer.board.place.field + board.place.field);
    return answer;
}
#endif

/* latch_lost, feldrime_state_at: the state has nothing latched */
#ifdef latch_lost
WRONG(feldrime_board_answer, feldrime_state_at, (feldrime_board board, CHARS, ATTRS, uint32_t n))
{
    feldrime_board_answer answer = __real_feldrime_state_at(board, C, A, n);
    if (answer.refusal == 0)
        answer.board.place.beam.latch = 0;
    return answer;
}
#endif

/* cursor_while_off, feldrime_step: CURSOR is low while the display is off */
#ifdef cursor_while_off
WRONG(feldrime_step_answer, feldrime_step, (feldrime_board *board, CHARS, ATTRS, FONT))
{
    int off = board->resets < 2 || !(board->page.switches & 1);
    feldrime_step_answer answer = __real_feldrime_step(board, C, A, F);
    if (off)
        answer.cursor = 0;
    return answer;
}
#endif

/* moved_though_refused, feldrime_step: a refused step moves the clock on */
#ifdef moved_though_refused
WRONG(feldrime_step_answer, feldrime_step, (feldrime_board *board, CHARS, ATTRS, FONT))
{
    feldrime_step_answer answer = __real_feldrime_step(board, C, A, F);
    if (answer.refusal != 0)
        board->place.clock++;
    return answer;
}
#endif

/* field_of_seven_bits, feldrime_step: the field counter goes from 127 to 0 */
#ifdef field_of_seven_bits
WRONG(feldrime_step_answer, feldrime_step, (feldrime_board *board, CHARS, ATTRS, FONT))
{
    uint8_t before = board->place.field;
    feldrime_step_answer answer = __real_feldrime_step(board, C, A, F);
    if (board->place.field != before)
        board->place.field &= 0x7F;
    return answer;
}
#endif

/* a_dot_past_the_cell, feldrime_step: the places past the cell's dots are not 0 */
#ifdef a_dot_past_the_cell
WRONG(feldrime_step_answer, feldrime_step, (feldrime_board *board, CHARS, ATTRS, FONT))
{
    feldrime_step_answer answer = __real_feldrime_step(board, C, A, F);
    if (answer.refusal == 0 && board->page.video.dots < 12)
        answer.dots[11] = answer.dots[0];
    return answer;
}
#endif
