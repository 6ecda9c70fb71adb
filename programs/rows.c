/* feldrime rows: where each row of a page comes from. */
#include <stdio.h>
#include <string.h>

#include "files.h"
#include "phrases.h"
#include "say.h"
#include "text.h"
#include "words.h"

const char rows_help[] =
    "Usage: feldrime rows [OPTION]... PAGE [PHRASES]\n"
    "Lists where each row of a page comes from, a line for each row:\n"
    "\n"
    "  from    what names the row's first cell: an entry of the row table, given by the two cells that hold it, or\n"
    "          screen start 1. 'goes on' is a row that begins where the row before it ended\n"
    "  size    only if rows have codes (IR0[7]): wide is double width, top and bottom are the upper and lower half of\n"
    "          double height, also in double width. The code is the two upper bits of the row's entry. Such a row shows\n"
    "          half as many cells, rounded up. The column is empty for a plain row\n"
    "  cells   the addresses of the cells that the row shows, in order. * marks cells that another row shows too\n"
    "  phrase  only with PHRASES: language and number of the first phrase in the list that holds all these cells, or\n"
    "          'no phrase'\n"
    "  text    what these cells hold, even if the picture does not show it. A cell without a character is a blank, and\n"
    "          a character that is not a letter, digit or sign of ASCII is a dot. Cells of graphics, which chip B has,\n"
    "          are '[graphics]'\n"
    "\n"
    "PHRASES is a text file with a line for each phrase: its language (de, en, fr, it or sl), its number, its first cell\n"
    "and its length in cells, as in 'de 11 4032 48'. Text after a # is a comment. The cells of a phrase are consecutive\n"
    "and do not pass cell 16383, so a row that runs past the last buffer address, or past 16383, is in a phrase only if\n"
    "the phrase also holds every cell between.\n"
    "If two phrases of the same language and number differ in first cell or length, the first two such lines are\n"
    "reported after the rows, and the exit status is 1.\n";

static struct page page;
static struct phrases list;
static bool has_list;
static uint16_t cells[FELDRIME_CELLS];
static uint32_t cell_count;

/* Which row shows a cell, if just one does. */
enum { NONE = -1, SEVERAL = -2 };
static int shown_by[FELDRIME_MEMORY];

static void count_cells(void)
{
    for (int i = 0; i < FELDRIME_MEMORY; i++)
        shown_by[i] = NONE;
    for (uint32_t row = 0; row < page.rows; row++) {
        cell_count = cells_of(&page, row, cells);
        for (uint32_t c = 0; c < cell_count; c++) {
            int *by = &shown_by[cells[c]];
            *by = *by == NONE || *by == (int)row ? (int)row : SEVERAL;
        }
    }
}

static bool shared(uint32_t c)
{
    return shown_by[cells[c]] == SEVERAL;
}

/* "3984-4095*,256-271*": a range ends where the next cell does not follow, or is shared where this one is not. */
static void ranges(char *text)
{
    for (uint32_t c = 0, first; c < cell_count; c++) {
        first = c;
        while (c + 1 < cell_count && cells[c + 1] == cells[c] + 1 && shared(c + 1) == shared(c))
            c++;
        text += sprintf(text, first == 0 ? "%u" : ",%u", (unsigned)cells[first]);
        if (c > first)
            text += sprintf(text, "-%u", (unsigned)cells[c]);
        text += sprintf(text, "%s", shared(c) ? "*" : "");
    }
}

static void origin(uint32_t row, char text[32])
{
    if (has_table(&page))
        sprintf(text, "entry %u,%u", (unsigned)entry_cell(&page, row, 0), (unsigned)entry_cell(&page, row, 1));
    else
        strcpy(text, row == 0 ? "screen start 1" : "goes on");
}

/* A column of its own, which a page without codes does not have. */
static void print_size(const char *size)
{
    if (has_codes(&page))
        printf("%-6s  ", size);
}

/* Likewise, if there is a list of phrases. */
static void print_phrase(const char *phrase)
{
    if (has_list)
        printf("%-9s  ", phrase);
}

static void phrase_of(uint32_t row, char text[32])
{
    feldrime_phrase_answer answer = feldrime_phrase_in(&page.parts, list.records, list.count, row);

    strcpy(text, "no phrase");
    if (answer.found)
        sprintf(text, "%s %u", languages[list.records[answer.position].language].code,
                (unsigned)list.records[answer.position].number);
}

static void print_row(uint32_t row)
{
    static const char *const sizes[] = { [PLAIN] = "", [WIDE] = "wide", [TOP] = "top", [BOTTOM] = "bottom" };
    char from[32], shown[FELDRIME_CELLS * 16], phrase[32], text[TEXT];

    cell_count = cells_of(&page, row, cells);
    origin(row, from);
    ranges(shown);
    phrase_of(row, phrase);
    text_of(&page, row, text);
    printf("%3u  %-17s  ", (unsigned)row, from);
    print_size(sizes[code_of(&page, row)]);
    printf("%-23s  ", shown);
    print_phrase(phrase);
    printf("|%s\n", text);
}

static void print_rows(void)
{
    count_cells();
    printf("row  from               ");
    print_size("size");
    printf("cells                    ");
    print_phrase("phrase");
    printf("text\n");
    for (uint32_t row = 0; row < page.rows; row++)
        print_row(row);
}

int rows_word(int count, char **operands)
{
    char why[WHY];

    if (!read_page(operands[0], &page, why)) {
        say(input_name(operands[0]), "%s", why);
        return COULD_NOT;
    }
    has_list = count == 2;
    if (has_list && !read_phrases(operands[1], &list, why)) {
        say(input_name(operands[1]), "%s", why);
        return COULD_NOT;
    }
    print_rows();
    bool agreed = phrases_agree(&list, why);
    if (!agreed) {
        fflush(stdout);
        say(input_name(operands[1]), "%s", why);
    }
    drop_phrases(&list);
    return agreed ? DONE : COULD_NOT;
}
