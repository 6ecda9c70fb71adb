/* The orders of scripts (tests/scripts/SCRIPTS.md), by the file that obeys them. */
#ifndef ORDERS_H
#define ORDERS_H

/* Obeys a line, of which it is handed all words. */
typedef void order(char **word);

/* reading.c */
order do_none, do_fill, do_set, do_mask, do_take;

/* board.c */
order do_board, do_board_again;

/* frame.c */
order do_frame;

/* moves.c */
order do_moves;

/* calls.c */
order call_page_check, call_page_size, call_page_read, call_page_write, call_font_read;
order call_line_draw, call_picture_draw, call_row_run, call_row_cells;
order call_phrase_of_row, call_phrases_differ, call_to_table, call_to_sheet;
order call_power, call_board_of, call_numbers_of, call_set_video, call_write, call_read, call_state_at;

/* steps.c */
order call_step;

#endif
