/* Answers scripts of calls (tests/scripts/SCRIPTS.md) through the library's archive: answer [exact|edge] < SCRIPTS
   Lent buffers stand between guard bytes. With `exact` each is an allocation of its own size, for valgrind; with `edge`
   each ends where memory that cannot be touched begins, so that a read past the end stops the program on any
   machine. */
#define _DEFAULT_SOURCE
#include <stdbool.h>
#include <stdio.h>
#include <stdlib.h>
#include <string.h>

#include "board.h"
#include "fail.h"
#include "lent.h"
#include "orders.h"
#include "reading.h"
#include "steps.h"

enum { WORDS_IN_A_LINE = 8 };

static void do_every(char **word)
{
    every = number(word[1]);
}

static void do_script(char **word)
{
    for (int which = 0; which < BUFFERS; which++)
        release(which);
    clear_board();
    every = 0;
    printf("script %s\n", word[1]);
    /* so that the name is out if a call stops the program */
    fflush(stdout);
}

static const struct {
    const char *name;
    int words;
    order *act;
} orders[] = {
    { "script", 2, do_script },
    { "none", 2, do_none },
    { "fill", 4, do_fill },
    { "set", 4, do_set },
    { "mask", 3, do_mask },
    { "take", 4, do_take },
    { "board", 2, do_board },
    { "board", 1, do_board_again },
    { "every", 2, do_every },
    { "frame", 1, do_frame },
    { "moves", 2, do_moves },
    { "call page_check", 2, call_page_check },
    { "call page_size", 2, call_page_size },
    { "call page_read", 2, call_page_read },
    { "call page_write", 2, call_page_write },
    { "call font_read", 2, call_font_read },
    { "call line_draw", 4, call_line_draw },
    { "call picture_draw", 3, call_picture_draw },
    { "call row_run", 3, call_row_run },
    { "call row_cells", 3, call_row_cells },
    { "call phrase_of_row", 3, call_phrase_of_row },
    { "call phrases_differ", 2, call_phrases_differ },
    { "call to_table", 2, call_to_table },
    { "call to_sheet", 2, call_to_sheet },
    { "call power", 2, call_power },
    { "call board_of", 2, call_board_of },
    { "call numbers_of", 2, call_numbers_of },
    { "call set_video", 6, call_set_video },
    { "call write", 4, call_write },
    { "call read", 3, call_read },
    { "call state_at", 3, call_state_at },
    { "call step", 3, call_step },
};

static bool is_order(size_t which, int words, char **word)
{
    const char *second = strchr(orders[which].name, ' ');
    size_t first = second == NULL ? strlen(orders[which].name) : (size_t)(second - orders[which].name);

    if (words != orders[which].words || strlen(word[0]) != first || strncmp(word[0], orders[which].name, first) != 0)
        return false;
    return second == NULL || strcmp(word[1], second + 1) == 0;
}

static void obey(char *line)
{
    char *word[WORDS_IN_A_LINE];
    int words = 0;

    line[strcspn(line, "\n")] = '\0';
    if (*line == '\0' || *line == '#')
        return;
    for (char *at = strtok(line, " "); at != NULL; at = strtok(NULL, " ")) {
        if (words == WORDS_IN_A_LINE)
            fail("too many words");
        word[words++] = at;
    }
    for (size_t which = 0; which < sizeof orders / sizeof *orders; which++)
        if (is_order(which, words, word)) {
            orders[which].act(word);
            return;
        }
    fail("not understood");
}

int main(int count, char *arguments[])
{
    char *line = NULL;
    size_t room = 0;

    if (count > 2 || (count == 2 && strcmp(arguments[1], "exact") != 0 && strcmp(arguments[1], "edge") != 0)) {
        fputs("usage: answer [exact|edge] < SCRIPTS\n", stderr);
        return 2;
    }
    mode = count == 1 ? GUARDED : strcmp(arguments[1], "exact") == 0 ? EXACT : EDGE;
    lend_board();
    for (script_line = 1; getline(&line, &room, stdin) != -1; script_line++)
        obey(line);
    printf("end\n");
    free(line);
    return 0;
}
