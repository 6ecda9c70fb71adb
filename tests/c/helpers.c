/* The header's short forms beside the calls that they stand for: helpers FONT GROUPED_FONT PAGE..
   Each is asked with the same bytes and counts, good and bad, and both have to answer the same and to leave the same behind. The fonts
   are one without groups and one with them, by which the pages are drawn. These have to be of both attribute modes and of both chips, and
   sheets and others. Then sentences of the header: how long files are, in which fields a picture can change, what a move leaves as it
   was, which record is a row's phrase and which two disagree, that every refusal has words of its own, and that header and library have
   one version. C99 and C++11. */
#include <stdio.h>
#include <stdlib.h>
#include <string.h>

#include "feldrime.h"

enum { ROOM = FELDRIME_PICTURE + 64, STEPS = 20000 };
enum { FIELD_MODE = 1 << 4 }; /* of the switches */

/* The rooms that the header names are those of the largest page: 128 rows of 16 lines of 256 cells of 12 dots. */
typedef char line_has_room[FELDRIME_LINE == 256 * 12 ? 1 : -1];
typedef char picture_has_room[FELDRIME_PICTURE == 128 * 16 * 256 * 12 ? 1 : -1];

/* What the calls are lent, buffer by buffer. */
static uint8_t numbers[FELDRIME_NUMBERS], chars[FELDRIME_MEMORY], attrs[FELDRIME_MEMORY];
static uint16_t words[FELDRIME_WORDS];
static uint8_t flags[FELDRIME_FLAGS], unshifted[FELDRIME_LIST], shifted[FELDRIME_LIST], groups[FELDRIME_GROUPS];
static size_t group_count;

/* What the short forms are lent. */
static feldrime_page page;
static feldrime_font font;

static uint8_t file[FELDRIME_PAGE_FILE + 1], out[2][ROOM];
static uint16_t cells[2][FELDRIME_CELLS + 8];
static unsigned long compared, refused, failed;
static unsigned latching; /* pages in field mode */
static unsigned drawing;  /* pages of chip B */
static unsigned sheets;   /* pages without a row table */

static void expect(int holds, const char *what)
{
    compared++;
    if (holds)
        return;
    failed++;
    fprintf(stderr, "helpers: %s\n", what);
}

/* Whether two buffers hold the same; they begin with the same filling, so a byte that one side alone wrote shows. */
static void same(const void *ours, const void *theirs, size_t bytes, const char *what)
{
    expect(memcmp(ours, theirs, bytes) == 0, what);
}

static void answers(const void *ours, const void *theirs, size_t bytes, uint32_t refusal, const char *what)
{
    same(ours, theirs, bytes, what);
    refused += refusal != FELDRIME_DONE;
}

static void fill_outs(void)
{
    memset(out, 0xA5, sizeof out);
    memset(cells, 0xA5, sizeof cells);
}

static size_t load(const char *name)
{
    FILE *stream = fopen(name, "rb");

    if (stream == NULL) {
        perror(name);
        exit(2);
    }
    size_t count = fread(file, 1, sizeof file, stream);
    fclose(stream);
    return count;
}

static uint32_t read_font(size_t count)
{
    feldrime_font_answer ours = feldrime_load_font(&font, file, count);
    feldrime_font_answer theirs = feldrime_font_read(file, count, words, FELDRIME_WORDS, flags, FELDRIME_FLAGS,
                                                     unshifted, FELDRIME_LIST, shifted, FELDRIME_LIST,
                                                     groups, FELDRIME_GROUPS);

    if (theirs.refusal == FELDRIME_DONE)
        group_count = theirs.groups;
    answers(&ours, &theirs, sizeof ours, theirs.refusal, "feldrime_load_font answers otherwise");
    same(font.words, words, sizeof words, "feldrime_load_font: words");
    same(font.flags, flags, sizeof flags, "feldrime_load_font: flags");
    same(font.unshifted, unshifted, sizeof unshifted, "feldrime_load_font: unshifted");
    same(font.shifted, shifted, sizeof shifted, "feldrime_load_font: shifted");
    same(font.groups, groups, sizeof groups, "feldrime_load_font: groups");
    expect(font.group_count == group_count, "feldrime_load_font: group_count");
    return theirs.refusal;
}

static void same_pages(const char *what)
{
    same(page.numbers, numbers, sizeof numbers, what);
    same(page.chars, chars, sizeof chars, what);
    same(page.attrs, attrs, sizeof attrs, what);
}

static void set_number(int place, uint8_t byte)
{
    page.numbers[place] = numbers[place] = byte;
}

static uint32_t read_page(size_t count)
{
    feldrime_answer ours = feldrime_load_page(&page, file, count);
    feldrime_answer theirs = feldrime_page_read(file, count, numbers, FELDRIME_NUMBERS, chars, FELDRIME_MEMORY,
                                                attrs, FELDRIME_MEMORY);

    answers(&ours, &theirs, sizeof ours, theirs.refusal, "feldrime_load_page answers otherwise");
    same_pages("feldrime_load_page: the page");
    return theirs.refusal;
}

/* A byte more, a byte less, no byte and a version that no file has, then the file as it is. */
static void read_all(uint32_t (*read_one)(size_t), size_t count)
{
    uint8_t version = file[0];

    expect(read_one(count + 1) == FELDRIME_REFUSED_LENGTH, "a file that is too long is not refused 2");
    expect(read_one(count - 1) == FELDRIME_REFUSED_LENGTH, "a file that is too short is not refused 2");
    expect(read_one(0) == FELDRIME_REFUSED_VERSION, "an empty file is not refused 1");
    file[0] = 255;
    expect(read_one(count) == FELDRIME_REFUSED_VERSION, "version 255 is not refused 1");
    file[0] = version;
    expect(read_one(count) == FELDRIME_DONE, "a whole file is refused");
}

/* A font of version 1 or 2, whose file is count bytes: what it has of groups, and what a call without room for them says. */
static void read_fonts(size_t count)
{
    uint32_t wanted = file[0] == 2 ? FELDRIME_GROUPS : 0;

    expect(count == feldrime_font_bytes(file[0]), "a font has not the size that the header says");
    memset(font.groups, 0xA5, sizeof font.groups);
    memset(groups, 0xA5, sizeof groups);
    read_all(read_font, count);
    expect(group_count == wanted, "the groups of a font are miscounted");
    expect(read_font(count - 1) == FELDRIME_REFUSED_LENGTH, "a font that is too short is not refused 2");
    expect((groups[0] == 0xA5) == (wanted == 0), "the groups of a font are not read, or not left");
    feldrime_font_answer answer = feldrime_font_read(file, count, words, FELDRIME_WORDS, flags, FELDRIME_FLAGS,
                                                     unshifted, FELDRIME_LIST, shifted, FELDRIME_LIST, NULL, 0);
    expect(answer.refusal == (wanted == 0 ? FELDRIME_DONE : FELDRIME_REFUSED_SIZE) && answer.groups == 0,
           "a font is not read without room for groups as the header says");
}

/* The first and the last group, and the last that there can be. */
static void spoil_groups(size_t count)
{
    for (size_t place = count - FELDRIME_GROUPS; place < count; place += FELDRIME_GROUPS - 1) {
        uint8_t group = file[place];
        file[place] = 5;
        expect(read_font(count) == FELDRIME_REFUSED_ADDRESS, "group 5 is not refused 12");
        file[place] = 4;
        expect(read_font(count) == FELDRIME_DONE, "group 4 is refused");
        file[place] = group;
    }
    expect(read_font(count) == FELDRIME_DONE, "a font is refused");
}

static void sizes_by_version(void)
{
    for (unsigned version = 0; version < 256; version++) {
        size_t page_size = version == 3 ? 32798 : version == 1 || version == 2 ? 32797 : 0;
        size_t font_size = version == 2 ? 2471 : version == 1 ? 2455 : 0;
        expect(feldrime_page_bytes((uint8_t)version) == page_size, "feldrime_page_bytes");
        expect(feldrime_font_bytes((uint8_t)version) == font_size, "feldrime_font_bytes");
    }
    expect(FELDRIME_PAGE_FILE == 32798 && FELDRIME_FONT_FILE == 2471, "the largest files");
}

static void write_page(size_t room)
{
    fill_outs();
    feldrime_answer ours = feldrime_save_page(&page, out[0], room);
    feldrime_answer theirs = feldrime_page_write(numbers, FELDRIME_NUMBERS, chars, FELDRIME_MEMORY,
                                                 attrs, FELDRIME_MEMORY, out[1], room);

    answers(&ours, &theirs, sizeof ours, theirs.refusal, "feldrime_save_page answers otherwise");
    same(out[0], out[1], ROOM, "feldrime_save_page: out");
    if (theirs.refusal == FELDRIME_DONE)
        same(out[0], file, feldrime_page_bytes(file[0]), "feldrime_save_page: not the file that was read");
}

static feldrime_size size_of_page(void)
{
    feldrime_size ours = feldrime_size_of(&page), theirs = feldrime_page_size(numbers, FELDRIME_NUMBERS);

    answers(&ours, &theirs, sizeof ours, theirs.refusal, "feldrime_size_of answers otherwise");
    return theirs;
}

static void draw(uint8_t field, size_t room)
{
    fill_outs();
    feldrime_answer ours = feldrime_draw(&page, &font, field, out[0], room);
    feldrime_answer theirs = feldrime_picture_draw(numbers, FELDRIME_NUMBERS, chars, FELDRIME_MEMORY,
                                                   attrs, FELDRIME_MEMORY, words, FELDRIME_WORDS, flags, FELDRIME_FLAGS,
                                                   unshifted, FELDRIME_LIST, shifted, FELDRIME_LIST, groups, group_count,
                                                   field, out[1], room);

    answers(&ours, &theirs, sizeof ours, theirs.refusal, "feldrime_draw answers otherwise");
    same(out[0], out[1], ROOM, "feldrime_draw: out");
}

static void draw_line(uint32_t line, uint8_t field, size_t room)
{
    memset(out[0], 0xA5, FELDRIME_LINE);
    memset(out[1], 0xA5, FELDRIME_LINE);
    feldrime_answer ours = feldrime_draw_one_line(&page, &font, line, field, out[0], room);
    feldrime_answer theirs = feldrime_line_draw(numbers, FELDRIME_NUMBERS, chars, FELDRIME_MEMORY,
                                                attrs, FELDRIME_MEMORY, words, FELDRIME_WORDS, flags, FELDRIME_FLAGS,
                                                unshifted, FELDRIME_LIST, shifted, FELDRIME_LIST, groups, group_count,
                                                line, field, out[1], room);

    answers(&ours, &theirs, sizeof ours, theirs.refusal, "feldrime_draw_one_line answers otherwise");
    same(out[0], out[1], FELDRIME_LINE, "feldrime_draw_one_line: out");
}

static void cells_of_row(uint32_t row, size_t room)
{
    memset(cells, 0xA5, sizeof cells);
    feldrime_cells ours = feldrime_cells_of(&page, row, cells[0], room);
    feldrime_cells theirs = feldrime_row_cells(numbers, FELDRIME_NUMBERS, chars, FELDRIME_MEMORY, row, cells[1], room);

    answers(&ours, &theirs, sizeof ours, theirs.refusal, "feldrime_cells_of answers otherwise");
    same(cells[0], cells[1], sizeof cells[0], "feldrime_cells_of: cells");
}

/* What both answer is expected, too. */
static void phrase_in_row(const feldrime_phrase *list, size_t count, uint32_t row, uint32_t refusal, uint32_t found, size_t position)
{
    feldrime_phrase_answer ours = feldrime_phrase_in(&page, list, count, row);
    feldrime_phrase_answer theirs = feldrime_phrase_of_row(numbers, FELDRIME_NUMBERS, chars, FELDRIME_MEMORY, list, count, row);

    expect(ours.refusal == theirs.refusal && ours.beside == theirs.beside && ours.found == theirs.found
               && ours.position == theirs.position, "feldrime_phrase_in answers otherwise");
    expect(theirs.refusal == refusal && theirs.beside == 0 && theirs.found == found && theirs.position == position,
           "feldrime_phrase_of_row does not answer as the header says");
    refused += theirs.refusal != FELDRIME_DONE;
}

static void differ(const feldrime_phrase *list, size_t count, uint32_t refusal, uint32_t found, size_t earlier, size_t later)
{
    feldrime_differ_answer answer = feldrime_phrases_differ(list, count);

    expect(answer.refusal == refusal && answer.beside == 0 && answer.found == found && answer.earlier == earlier
               && answer.later == later, "feldrime_phrases_differ does not answer as the header says");
}

/* A row's lowest and highest cell. A row that runs past the last buffer address has others between them. */
static void ends_of_row(uint32_t row, uint32_t ends[2])
{
    feldrime_cells answer = feldrime_cells_of(&page, row, cells[0], FELDRIME_CELLS);

    ends[0] = FELDRIME_MEMORY;
    ends[1] = 0;
    for (uint32_t i = 0; i < answer.count; i++) {
        ends[0] = cells[0][i] < ends[0] ? cells[0][i] : ends[0];
        ends[1] = cells[0][i] > ends[1] ? cells[0][i] : ends[1];
    }
}

/* The records one after the other: without a row's lowest cell, without its highest, from the one to the other, all of memory. */
static void phrases_of_row(uint32_t row)
{
    uint32_t ends[2];

    ends_of_row(row, ends);
    uint32_t length = ends[1] - ends[0] + 1;
    feldrime_phrase list[4] = { { 1, 7, ends[0] + 1, length - 1 }, { 1, 8, ends[0], length - 1 }, { 1, 7, ends[0], length },
                                { 2, 7, 0, FELDRIME_MEMORY } };

    phrase_in_row(NULL, 0, row, FELDRIME_DONE, 0, 0);
    phrase_in_row(list, 2, row, FELDRIME_DONE, 0, 0);
    phrase_in_row(list, 4, row, FELDRIME_DONE, 1, 2);
    phrase_in_row(list + 3, 1, row, FELDRIME_DONE, 1, 0);
    differ(list, 4, FELDRIME_DONE, 1, 0, 2);
    differ(list + 1, 3, FELDRIME_DONE, 0, 0, 0);
    /* then its first cell alone is not that of the record before it, and its length not that of the one behind it */
    list[1].number = 7;
    differ(list, 2, FELDRIME_DONE, 1, 0, 1);
    differ(list + 1, 2, FELDRIME_DONE, 1, 0, 1);
    list[3].length++;
    phrase_in_row(list, 4, row, FELDRIME_REFUSED_RECORD, 0, 3);
    list[1].length = 0;
    phrase_in_row(list, 4, row, FELDRIME_REFUSED_RECORD, 0, 1);
    differ(list, 4, FELDRIME_REFUSED_RECORD, 0, 1, 0);
    phrase_in_row(list, 4, 128, FELDRIME_REFUSED_RANGE, 0, 0);
}

/* Clock by clock, and one that is refused. The numbers of the page that is lent play no part, so they are spoiled. */
static void tick(void)
{
    feldrime_board ours = feldrime_board_of(numbers, FELDRIME_NUMBERS).board, theirs = ours;

    memset(page.numbers, 0xFF, sizeof page.numbers);
    for (int i = 0; i <= STEPS; i++) {
        if (i == STEPS)
            ours.pointer = theirs.pointer = 15;
        feldrime_step_answer a = feldrime_tick(&ours, &page, &font);
        feldrime_step_answer b = feldrime_step(&theirs, chars, FELDRIME_MEMORY, attrs, FELDRIME_MEMORY,
                                               words, FELDRIME_WORDS, flags, FELDRIME_FLAGS, unshifted, FELDRIME_LIST,
                                               shifted, FELDRIME_LIST, groups, group_count);

        answers(&a, &b, sizeof a, b.refusal, "feldrime_tick answers otherwise");
        expect(ours.place.line == theirs.place.line && ours.place.clock == theirs.place.clock
                   && ours.place.beam.address == theirs.place.beam.address
                   && ours.place.beam.latch == theirs.place.beam.latch && ours.place.row.code == theirs.place.row.code,
               "feldrime_tick: the board stands elsewhere, or has another byte latched or another row code");
    }
    memcpy(page.numbers, numbers, sizeof numbers);
}

/* A picture changes only at fields that 16 divides, and is the same again after 128. Gives how many of the eight fields that are
   then left do not look as the one before. */
static unsigned changes(size_t dots)
{
    unsigned different = 0;

    for (int i = 0; i < 256; i++) {
        feldrime_draw(&page, &font, (uint8_t)i, out[0], dots);
        feldrime_draw(&page, &font, (uint8_t)(i / 16 % 8 * 16), out[1], dots);
        same(out[0], out[1], dots, "a field looks otherwise than the header says");
        feldrime_draw(&page, &font, (uint8_t)(i - 16), out[1], dots);
        different += i < 128 && i % 16 == 0 && memcmp(out[0], out[1], dots) != 0;
    }
    return different;
}

/* A line of 256 cells, too short for any page here: the number beside the refusal is the header's sum. */
static void short_line(void)
{
    uint32_t ec = (numbers[2] & 127u) + 1, hsync = 2 * (numbers[3] >> 3 & 15u) + 2, hbp = 4 * (numbers[3] & 7u) - 1;

    set_number(6, 255);
    feldrime_size size = size_of_page();
    expect(size.refusal == FELDRIME_REFUSED_LINE_SHORT, "a line that is too short is not refused 14");
    expect(size.beside == 256 + hsync + hbp + 2 - 2 * (ec + 2 * hsync), "14 does not tell how many clocks are missing");
}

static uint32_t to_table(void)
{
    feldrime_answer ours = feldrime_make_table(&page);
    feldrime_answer theirs = feldrime_to_table(numbers, FELDRIME_NUMBERS, chars, FELDRIME_MEMORY);

    answers(&ours, &theirs, sizeof ours, theirs.refusal, "feldrime_make_table answers otherwise");
    same_pages("feldrime_make_table: the page");
    return theirs.refusal;
}

static uint32_t to_sheet(void)
{
    feldrime_answer ours = feldrime_make_sheet(&page);
    feldrime_answer theirs = feldrime_to_sheet(numbers, FELDRIME_NUMBERS, chars, FELDRIME_MEMORY);

    answers(&ours, &theirs, sizeof ours, theirs.refusal, "feldrime_make_sheet answers otherwise");
    same_pages("feldrime_make_sheet: the page");
    return theirs.refusal;
}

/* A move that has to answer so; refused, it has to leave the page. */
static void move(uint32_t (*move_one)(void), uint32_t refusal, const char *what)
{
    static feldrime_page before;

    before = page;
    expect(move_one() == refusal, what);
    if (refusal != FELDRIME_DONE)
        same(&page, &before, sizeof page, "a move that is refused changes the page");
}

/* The fields are those of which the header says that they show all looks. */
static void same_looks(const feldrime_page *other, size_t dots)
{
    for (int field = 0; field < 128; field += 16) {
        feldrime_draw(&page, &font, (uint8_t)field, out[0], dots);
        feldrime_draw(other, &font, (uint8_t)field, out[1], dots);
        same(out[0], out[1], dots, "a page that was moved looks otherwise");
    }
}

/* A sheet goes there and comes back, but for screen start 2 and the table's cells. The numbers that are not used stay too. */
static void there_and_back(size_t dots)
{
    static feldrime_page first;

    int unused = numbers[0] == 3 ? 26 : 25;
    memset(page.numbers + unused, 0xA5, (size_t)(FELDRIME_NUMBERS - unused));
    memset(numbers + unused, 0xA5, (size_t)(FELDRIME_NUMBERS - unused));
    first = page;
    move(to_sheet, FELDRIME_REFUSED_KIND, "a sheet is not refused 16 on the way back");
    move(to_table, FELDRIME_DONE, "a sheet cannot be moved");
    same_looks(&first, dots);
    move(to_table, FELDRIME_REFUSED_KIND, "a page with a row table is not refused 16 on the way there");
    move(to_sheet, FELDRIME_DONE, "a sheet that was moved cannot be moved back");
    same_looks(&first, dots);

    size_t table = numbers[20] * 256u + numbers[21], count = 2 * ((numbers[5] & 127u) + 1);
    memcpy(page.numbers + 20, first.numbers + 20, 2);
    memcpy(page.chars + table, first.chars + table, count);
    same(&page, &first, sizeof page, "a sheet that was moved does not come back");
    memcpy(numbers, page.numbers, sizeof numbers);
    memcpy(chars, page.chars, sizeof chars);
}

/* As the header says it: there or back, whichever the board's page is not yet. */
static void move_board(feldrime_board *board)
{
    feldrime_numbers_of(*board, numbers, FELDRIME_NUMBERS);
    feldrime_answer answer = numbers[3] >> 7 ? feldrime_to_sheet(numbers, FELDRIME_NUMBERS, chars, FELDRIME_MEMORY)
                                             : feldrime_to_table(numbers, FELDRIME_NUMBERS, chars, FELDRIME_MEMORY);
    expect(answer.refusal == FELDRIME_DONE, "a board's page cannot be moved");
    board->page = feldrime_board_of(numbers, FELDRIME_NUMBERS).board.page;
}

/* A sheet's board, moved there and back in the middle of its steps, beside one that is not. */
static void step_moved(void)
{
    feldrime_board ours = feldrime_board_of(numbers, FELDRIME_NUMBERS).board, theirs = ours;

    for (int i = 0; i < STEPS; i++) {
        if (i == STEPS / 3 || i == STEPS / 2)
            move_board(&ours);
        feldrime_step_answer a = feldrime_step(&ours, chars, FELDRIME_MEMORY, attrs, FELDRIME_MEMORY,
                                               words, FELDRIME_WORDS, flags, FELDRIME_FLAGS, unshifted, FELDRIME_LIST,
                                               shifted, FELDRIME_LIST, groups, group_count);
        feldrime_step_answer b = feldrime_tick(&theirs, &page, &font);

        same(&a, &b, sizeof a, "a board that was moved shows something else");
    }
    memcpy(numbers, page.numbers, sizeof numbers);
    memcpy(chars, page.chars, sizeof chars);
}

/* What a move refuses, by a page of 113 rows of 143 cells in all of memory: 225 cells are left, and a table needs 226. With a row table both
   its first two rows begin at cell 0. */
static void refused_moves(void)
{
    static const uint8_t irs[15] = { 0, 127, 9, 0, 112, 142, 0, 0, 0, 0xF0 };

    for (int i = 0; i < 15; i++)
        set_number(1 + i, irs[i]);
    for (int i = 16; i < 22; i++)
        set_number(i, 0);
    set_number(23, 8);
    memset(page.chars, 0, 4);
    memset(chars, 0, 4);
    move(to_table, FELDRIME_REFUSED_STRETCH, "a sheet without room for a table is not refused 17");
    move(to_sheet, FELDRIME_REFUSED_KIND, "it is not refused 16");
    set_number(3, 128 | 9);
    move(to_table, FELDRIME_REFUSED_KIND, "a page with a row table is not refused 16");
    move(to_sheet, FELDRIME_REFUSED_APART, "rows that do not follow are not refused 18");
    set_number(1, 128);
    move(to_sheet, FELDRIME_REFUSED_CODED, "a page with row codes is not refused 19");
    set_number(2, 0);
    move(to_table, FELDRIME_REFUSED_LINE_SHORT, "14 does not come before 16");
    move(to_sheet, FELDRIME_REFUSED_LINE_SHORT, "14 does not come before 19");
    set_number(0, 255);
    move(to_table, FELDRIME_REFUSED_SIZE, "an unknown version is not refused 3");
    move(to_sheet, FELDRIME_REFUSED_SIZE, "an unknown version is not refused 3 on the way back");
}

static unsigned compare_page(size_t count)
{
    expect(count == feldrime_page_bytes(file[0]), "a page has not the size that the header says");
    read_all(read_page, count);
    latching += numbers[22] & FIELD_MODE ? 1 : 0;
    drawing += numbers[25];
    write_page(count - 1);
    write_page(count);
    write_page(count + 1);

    feldrime_size size = size_of_page();
    size_t dots = (size_t)size.lines * size.dots;
    draw(0, dots - 1);
    draw(0, dots);
    draw(112, dots + 64);
    for (uint32_t line = 0; line <= size.lines; line++)
        draw_line(line, (uint8_t)line, FELDRIME_LINE);
    draw_line(0, 0, size.dots - 1);
    for (uint32_t row = 0; row <= 128; row++)
        cells_of_row(row, FELDRIME_CELLS);
    cells_of_row(0, FELDRIME_CELLS - 1);
    for (uint32_t row = 0; row <= (numbers[5] & 127u); row++)
        phrases_of_row(row);
    differ(NULL, 0, FELDRIME_DONE, 0, 0, 0);
    tick();

    if (numbers[3] < 128) {
        sheets++;
        there_and_back(dots);
        step_moved();
    }
    unsigned different = changes(dots);
    set_number(23, 13);
    size_of_page();
    short_line();
    refused_moves();
    return different;
}

/* 5 was split, and 11 never was one. */
static int no_refusal(uint32_t number)
{
    return number == 5 || number == 11 || number > FELDRIME_REFUSED_RECORD;
}

/* No two refusals have the same words, and the numbers that are none have words in common. */
static void meanings(void)
{
    for (uint32_t i = 0; i <= FELDRIME_REFUSED_RECORD; i++)
        for (uint32_t j = i + 1; j <= FELDRIME_REFUSED_RECORD + 1; j++)
            expect((strcmp(feldrime_meaning(i), feldrime_meaning(j)) == 0) == (no_refusal(i) && no_refusal(j)),
                   "words of a refusal");
}

int main(int count, char *arguments[])
{
    unsigned different = 0;

    if (count < 4) {
        fputs("usage: helpers FONT GROUPED_FONT PAGE..\n", stderr);
        return 2;
    }
    sizes_by_version();
    read_fonts(load(arguments[1]));
    expect(group_count == 0, "the first font has groups");
    size_t bytes = load(arguments[2]);
    read_fonts(bytes);
    expect(group_count == FELDRIME_GROUPS, "the second font has no groups");
    spoil_groups(bytes);
    for (int i = 3; i < count; i++)
        different += compare_page(load(arguments[i]));
    meanings();
    expect(feldrime_version() == FELDRIME_VERSION, "the header and the library have different versions");
    expect(different > 0, "no page blinks, so that fields were compared in vain");
    expect(latching > 0 && latching < (unsigned)count - 3, "not both attribute modes were met");
    expect(drawing > 0 && drawing < (unsigned)count - 3, "not both chips were met");
    expect(sheets > 0 && sheets < (unsigned)count - 3, "not both sheets and pages with a row table were met");
    printf("helpers: %lu answers compared, %lu of them refused, %lu differ; %u looks of blinking pages; %u in field mode; %u of chip B; %u sheets\n",
           compared, refused, failed, different, latching, drawing, sheets);
    return failed == 0 ? 0 : 1;
}
