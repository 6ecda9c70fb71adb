/* Feldrime: the pages of an old terminal board, drawn dot for dot. Link target/staticlib/libfeldrime.a (x86-64).
   Needs C99 or later, or C++11 or later.

   To draw a page, three calls:

     feldrime_load_page(&page, bytes, count)                        takes a page file apart
     feldrime_load_font(&font, bytes, count)                        takes a font file apart
     feldrime_draw(&page, &font, field, picture, sizeof picture)    draws all lines, a byte for each dot

   bytes is the whole file. Read it into a buffer with room for one byte more than FELDRIME_PAGE_FILE or
   FELDRIME_FONT_FILE, and pass everything that was read. A program that asks for no more than the right size cuts a
   file that is too long, and the cut file is accepted. If a page and then a font come in one stream, the page has
   feldrime_page_bytes(its first byte) bytes, and the font is all the rest; if these are 0, or the stream ends sooner,
   the page is all that was read, and is refused.

   feldrime_size_of(&page) gives the number of lines in the picture and of dots in a line. Blinking depends on the field
   count, which is the frame's number modulo 256; a still picture is field 0. examples/draw.c does just this.
   feldrime_draw_one_line draws a single line, feldrime_cells_of gives the cells of the memories that a row shows, and
   feldrime_save_page makes a page file. feldrime_make_table turns a typed sheet into a page with a row table, like
   those of a catalogue, and feldrime_make_sheet turns it back. feldrime_phrase_in finds the phrase of a list that a row
   comes from, and feldrime_phrases_differ finds out whether such a list contradicts itself. All but the last are short
   forms of calls over plain buffers. The calls come first, and say what they refuse. The calls for an editor, which
   steps a board clock by clock, come last.

   No two names are the same words in another order: a call over buffers reads and writes a page (feldrime_page_read), a
   short form loads and saves it (feldrime_load_page).

   For every call:
   - A slice is a pointer and a count of elements, not of bytes. The pointer is NULL only if the count is 0; words and
     cells are aligned like uint16_t, phrases like uint32_t. Each count is checked: one that is wrong for the call is
     refused. A list of phrases may have any count.
   - A pointer without a count (board, page, font) is never NULL and points to one such struct.
   - A buffer that is written overlaps no other buffer of the call.
   - A refused call leaves every buffer as it was. Whatever follows a drawn picture or line, the cells of a row or a
     written file in its buffer stays as it was.
   - An answer is a struct by value. It begins with refusal, which is 0 on success. Otherwise it is the first that
     applies of the numbers listed at the call, in that order. beside belongs to 14 and 15: it is the number of clocks
     by which the front porch misses 2, HACT + HSYNC + HBP + 2 - HT; otherwise it is 0. On a refusal the results are 0,
     unless the call says otherwise. Compare answers field by field, since some have unused bytes between the fields.
   - The library keeps nothing between calls and has no state of its own. Threads may call it at the same time, as long
     as a buffer that is being written is used by one call at a time. FELDRIME_STACK bytes of stack are enough for every
     call, and FELDRIME_STACK_SMALL for all but feldrime_picture_draw and feldrime_to_table. */
#ifndef FELDRIME_H
#define FELDRIME_H

#include <stddef.h>
#include <stdint.h>

#ifdef __cplusplus
extern "C" {
#endif

/* The version of this header and of the library that it belongs to. As long as it stays the same, everything said here
   holds, though calls may be added. Another version may have other calls, structs, sizes and refusal numbers, and may
   accept and draw other things: read your program through and compile it again. Files have versions of their own. */
#define FELDRIME_VERSION 8

/* The version of the library. A program that may meet another library than the one it was compiled for, a shared one
   for example, compares it with FELDRIME_VERSION and calls nothing else if they differ. */
uint32_t feldrime_version(void);

/* The sizes of buffers, in elements. */
enum {
    FELDRIME_NUMBERS = 32,      /* a page's numbers */
    FELDRIME_MEMORY = 16384,    /* character memory, and attribute memory */
    FELDRIME_WORDS = 1152,      /* a font's words: 9 for each of 128 characters, the top one first */
    FELDRIME_FLAGS = 128,       /* its shift flags */
    FELDRIME_LIST = 9,          /* its unshifted and its shifted list of line numbers */
    FELDRIME_GROUPS = 16,       /* its groups, one for each scan line; a font without them has 0 */
    FELDRIME_LINE = 3072,       /* room for the longest line: 256 cells of 12 dots */
    FELDRIME_PICTURE = 6291456, /* room for the largest picture: 2048 such lines */
    FELDRIME_CELLS = 256,       /* room for the cells of the longest row */
    FELDRIME_PAGE_FILE = 32798, /* the largest size of a page file; a buffer for reading one has one byte more */
    FELDRIME_FONT_FILE = 2471   /* the same for a font file */
};

/* The exact size of a page file by its version byte, its first; 0 for a version that is not known. */
static inline size_t feldrime_page_bytes(uint8_t version)
{
    if (version == 3)
        return FELDRIME_PAGE_FILE;
    return version == 1 || version == 2 ? FELDRIME_PAGE_FILE - 1 : 0;
}

/* The same for a font file. */
static inline size_t feldrime_font_bytes(uint8_t version)
{
    if (version == 2)
        return FELDRIME_FONT_FILE;
    return version == 1 ? FELDRIME_FONT_FILE - FELDRIME_GROUPS : 0;
}

/* Bytes of stack, including a call's arguments and what the dynamic linker uses at the first call. */
enum { FELDRIME_STACK = 32768, FELDRIME_STACK_SMALL = 8192 };

/* The level of a dot. */
enum { FELDRIME_BLACK = 0, FELDRIME_GRAY = 1, FELDRIME_WHITE = 2 };

enum {
    FELDRIME_DONE = 0,
    FELDRIME_REFUSED_VERSION = 1,
    FELDRIME_REFUSED_LENGTH = 2,
    FELDRIME_REFUSED_SIZE = 3,
    FELDRIME_REFUSED_RESERVED = 4,
    FELDRIME_REFUSED_WIDTH = 6,
    FELDRIME_REFUSED_RANGE = 7,
    FELDRIME_REFUSED_ROOM = 8,
    FELDRIME_REFUSED_REGISTER = 9,
    FELDRIME_REFUSED_COMMAND = 10,
    FELDRIME_REFUSED_ADDRESS = 12,
    FELDRIME_REFUSED_BACK_PORCH = 13,
    FELDRIME_REFUSED_LINE_SHORT = 14,
    FELDRIME_REFUSED_FRONT_PORCH = 15,
    FELDRIME_REFUSED_KIND = 16,
    FELDRIME_REFUSED_STRETCH = 17,
    FELDRIME_REFUSED_APART = 18,
    FELDRIME_REFUSED_CODED = 19,
    FELDRIME_REFUSED_RECORD = 20
};

/* What a refusal number means, in words that name all its causes. */
static inline const char *feldrime_meaning(uint32_t refusal)
{
    switch (refusal) {
    case FELDRIME_DONE:
        return "done";
    case FELDRIME_REFUSED_VERSION:
        return "the file is empty, or its version byte is not 1 or 2, nor 3 in a page file";
    case FELDRIME_REFUSED_LENGTH:
        return "the length field is wrong, or the file has too few or too many bytes";
    case FELDRIME_REFUSED_SIZE:
        return "a buffer has the wrong size or no room for the file or the font's groups, "
               "or the page's numbers do not begin with version 1, 2 or 3";
    case FELDRIME_REFUSED_RESERVED:
        return "interlace (IR1[7]) is set, or row codes (IR0[7]) without the row table (IR2[7])";
    case FELDRIME_REFUSED_WIDTH:
        return "the dots of a cell are not 6 to 12";
    case FELDRIME_REFUSED_RANGE:
        return "the line or row asked for, or a board's line, clock, address, row start or IR pointer, is out of range";
    case FELDRIME_REFUSED_ROOM:
        return "the buffer for the line or the picture is too short";
    case FELDRIME_REFUSED_REGISTER:
        return "the register address is above 7";
    case FELDRIME_REFUSED_COMMAND:
        return "the command is not carried, or it loads 15 into the IR pointer";
    case FELDRIME_REFUSED_ADDRESS:
        return "screen start 1, screen start 2 or the cursor address is above 16383, "
               "one of the switches 4 to 7 is set (in versions 2 and 3, switch 6 or 7), the strike line is above 15, "
               "in version 3 the chip is above 1, or a group of the font is above 4";
    case FELDRIME_REFUSED_BACK_PORCH:
        return "the back porch code (IR2[2:0]) is 0";
    case FELDRIME_REFUSED_LINE_SHORT:
        return "the line is too short for its active, sync and back porch clocks "
               "(EC in IR1, HSYNC and HBP in IR2, HACT in IR5)";
    case FELDRIME_REFUSED_FRONT_PORCH:
        return "the front porch is 0 or 1 clocks, and 2 are needed (EC in IR1, HSYNC and HBP in IR2, HACT in IR5)";
    case FELDRIME_REFUSED_KIND:
        return "the page is already of the kind asked for, with the row table (IR2[7]) or without it";
    case FELDRIME_REFUSED_STRETCH:
        return "there is no room for a row table: no stretch of two cells a row, not passing cell 16383, "
               "that no row fetches";
    case FELDRIME_REFUSED_APART:
        return "some row after the first does not begin where the row before it ended";
    case FELDRIME_REFUSED_CODED:
        return "rows have codes (IR0[7]), and the rows of a sheet have none";
    case FELDRIME_REFUSED_RECORD:
        return "a phrase record has length 0 or passes cell 16383";
    default:
        return "no refusal has this number";
    }
}

/* A page's numbers, 32 bytes:

     0        version, 1, 2 or 3
     1 - 15   IR0 to IR14
     16, 17   screen start 1, high byte first
     18, 19   cursor address, likewise
     20, 21   screen start 2, likewise: where the row table is
     22       switches: bit 0 display, 1 cursor, 2 BKGND, 3 RBLANK, and from version 2 on bit 4 field mode, 5 ACD;
              others 0
     23       dots in a cell
     24       strike line
     25       in version 3 the chip, 0 for A, 1 for B; in versions 1 and 2, which mean A, like the bytes after it
     26 - 31  written as 0, ignored when read

   The fields of the IRs, n being a field's code:

     IR0[7]; [6:3]               rows have codes, which needs the row table; scan lines in a row, n + 1
     IR1[7]; [6:0]               must be 0; EC, n + 1
     IR2[7]; [6:3]; [2:0]        row table on; HSYNC, 2n + 2; HBP, 4n - 1, n not 0
     IR3[7:5]; [4:0]             VFP, 4n + 4; VBP, 2n + 4
     IR4[7]; [6:0]               BLINK over 64 or, if 1, 128 fields; rows, n + 1
     IR5                         HACT, the cells in a row, n + 1
     IR6[7:4]; [3:0]             first and last cursor line
     IR7[7:6]; [5]; [4]; [3:0]   VSYNC 3, 1, 5, 7; cursor blinks; over 32 or, if 1, 64 fields; underline line
     IR8, IR9[3:0]               first buffer address, low eight bits and high four
     IR9[7:4]                    last buffer address, 1024 (n + 1) - 1
     IR10 - IR14                 kept and not used

   A line has HT = 2 (EC + 2 HSYNC) clocks, of which HT - HACT - HSYNC - HBP are the front porch, at least 2.

   A page shows rows x scan lines lines, of HACT x dots dots each. Cells follow one another in memory; after the last
   buffer address comes the first, and after 16383 comes 0. Row 0 begins at screen start 1, and each later row where the
   one before it ended: such a page is a sheet. With the row table on, two character bytes hold the address where row r
   begins, at screen start 2 + 2r and the address after it, each modulo 16384: low byte, then high byte, of which six
   bits count.

   While IR0[7] is set, the two upper bits of that high byte are the row's code: 00 plain, 01 double width, 10 double
   width and top half, 11 double width and bottom half. A row of double width has half as many cells, rounded up: column
   c shows cell c / 2, its left half in even columns and its right half in odd ones, each dot twice. With L scan lines
   in a row, line l of a top half shows scan line l / 2, and of a bottom half (L + l) / 2, rounded down: so do its
   cursor, underline and strike. Two rows, codes 10 and 11, that begin at the same cell make a headline of double
   height.

   A character byte is 80 hex + the character; below 80 hex the cell has no character. An attribute byte: bit 0 reverse,
   1 blank, 2 blink, 3 underline, 4 highlight (white for gray), 5 strike on chip A and graphics on chip B, which has no
   strike, and 7, AFLG, without which the others do not count. A cell without AFLG has no attributes; but in field mode
   it has those of the last cell before it with AFLG, in the order of fetching from row 0, column 0 on, if there is one.
   In field mode with ACD off a cell with AFLG shows neither character nor graphics, but has its attributes, and its
   underline and strike; with ACD on it shows its character or graphics. Without field mode ACD has no effect.

   A cell's symbol is gray, or white if highlighted, on black. BKGND, reverse and the cursor each exchange the two; two
   of them cancel. On the underline line underline makes all dots of the cell symbol, on the strike line strike does.
   Blank hides the symbol, and so does blink while BLINK is on. The cursor, if its switch is on, is on every cell whose
   address is the cursor address, from the first to the last cursor line; if the first is above the last there is none.
   With the display off every dot is black, or gray if BKGND is on and RBLANK off.

   BLINK is on in the last quarter of its period: in fields 48 to 63 of each 64, or 96 to 127 of each 128. A cursor that
   blinks is on in the first half of its own: in fields 0 to 15 of each 32, or 0 to 31 of each 64. A picture can change
   only at a field that 16 divides, and after 128 fields it is the same again: fields 0, 16, 32 .. 112 show all looks of
   a page.

   A font word has the leftmost dot in bit 0, and ten bits count. Word i of a character appears on the scan line that
   position i of a list names: of the shifted list if the character's flag is not 0, else of the unshifted one.

   A graphics cell shows the bits of its character byte, of all 256, in the place of a character. Each scan line has a
   group, 0 to 4: 1 shows bits 0 and 1, 2 bits 2 and 3, 3 bits 4 and 5, 4 bits 6 and 7, and 0 none. They stand where a
   font word does: the lower bit in its dots 0 to 4, its neighbour in dots 5 to 9. A font without groups shows nothing
   there. All else is as for a character. */

typedef struct {
    uint32_t refusal, beside;
} feldrime_answer;

typedef struct {
    uint32_t refusal, beside;
    uint32_t groups; /* how many the file has, 0 or 16 */
} feldrime_font_answer;

typedef struct {
    uint32_t refusal, beside;
    uint32_t lines, dots; /* visible lines, dots in a line */
} feldrime_size;

typedef struct {
    uint32_t refusal, beside;
    uint32_t first, count; /* chars[first] to chars[first + count - 1] */
} feldrime_run;

typedef struct {
    uint32_t refusal, beside;
    uint32_t count; /* cells[0] to cells[count - 1] */
} feldrime_cells;

/* A record of a list of phrases: the cells first to first + length - 1. The list decides which number stands for which
   language, and for which phrase in it. Any four numbers may be passed: 20 is for a record whose length is 0 or whose
   last cell is above 16383. */
typedef struct {
    uint32_t language, number, first, length;
} feldrime_phrase;

typedef struct {
    uint32_t refusal, beside;
    uint32_t found;  /* 0 or 1 */
    size_t position; /* phrases[position] */
} feldrime_phrase_answer;

typedef struct {
    uint32_t refusal, beside;
    uint32_t found;        /* 0 or 1 */
    size_t earlier, later; /* phrases[earlier] and phrases[later] */
} feldrime_differ_answer;

/* Can such a page be drawn? Refuses 3, 12, 4, 13, 14, 15, 6. */
feldrime_answer feldrime_page_check(
    const uint8_t *numbers, size_t numbers_count);

/* The size of its picture. Refuses 3, 12, 4, 13, 14, 15, 6. */
feldrime_size feldrime_page_size(
    const uint8_t *numbers, size_t numbers_count);

/* Takes a page file apart: version byte, 1, 2 or 3; how many bytes follow this field, 32792, or in version 3 32793, in
   four bytes, high byte first; bytes 1 to 24 of the numbers, in version 3 to 25; character memory; attribute memory.
   Writes all of numbers, chars and attrs. Refuses 1, 2, 3, 12, 4, 13, 14, 15, 6. */
feldrime_answer feldrime_page_read(
    const uint8_t *file, size_t file_count,
    uint8_t *numbers, size_t numbers_count,
    uint8_t *chars, size_t chars_count,
    uint8_t *attrs, size_t attrs_count);

/* Writes a page file of the numbers' version to the first feldrime_page_bytes(version) bytes of out. Refuses 3, 12, 4,
   13, 14, 15, 6. */
feldrime_answer feldrime_page_write(
    const uint8_t *numbers, size_t numbers_count,
    const uint8_t *chars, size_t chars_count,
    const uint8_t *attrs, size_t attrs_count,
    uint8_t *out, size_t out_count);

/* Takes a font file apart: version byte, 1 or 2; how many bytes follow this field, 2450, or in version 2 2466, in four
   bytes, high byte first; the words, high byte first; the flags; the unshifted list; the shifted list; in version 2 the
   groups, from scan line 0 on. Writes all of these; a file of version 1 leaves groups as they were. Here, and wherever
   a font is passed, groups are 0 or 16. Refuses 1, 2, 3, 12; a file of version 2 with 0 groups is 3. 12 is for a group
   above 4 in the file. */
feldrime_font_answer feldrime_font_read(
    const uint8_t *file, size_t file_count,
    uint16_t *words, size_t words_count,
    uint8_t *flags, size_t flags_count,
    uint8_t *unshifted, size_t unshifted_count,
    uint8_t *shifted, size_t shifted_count,
    uint8_t *groups, size_t groups_count);

/* Draws all visible lines as they look in a field, end to end, to the first lines x dots bytes of out. lines and dots
   are as feldrime_page_size gives them. Refuses 3, 12, 4, 13, 14, 15, 6, 8. 12 is for the font's groups too, on both
   chips and for every page, here and in the calls below that take a font. */
feldrime_answer feldrime_picture_draw(
    const uint8_t *numbers, size_t numbers_count,
    const uint8_t *chars, size_t chars_count,
    const uint8_t *attrs, size_t attrs_count,
    const uint16_t *words, size_t words_count,
    const uint8_t *flags, size_t flags_count,
    const uint8_t *unshifted, size_t unshifted_count,
    const uint8_t *shifted, size_t shifted_count,
    const uint8_t *groups, size_t groups_count,
    uint8_t field,
    uint8_t *out, size_t out_count);

/* Draws one of these lines, to the first dots bytes of out. Refuses 3, 12, 4, 13, 14, 15, 6, 7, 8. */
feldrime_answer feldrime_line_draw(
    const uint8_t *numbers, size_t numbers_count,
    const uint8_t *chars, size_t chars_count,
    const uint8_t *attrs, size_t attrs_count,
    const uint16_t *words, size_t words_count,
    const uint8_t *flags, size_t flags_count,
    const uint8_t *unshifted, size_t unshifted_count,
    const uint8_t *shifted, size_t shifted_count,
    const uint8_t *groups, size_t groups_count,
    uint32_t line, uint8_t field,
    uint8_t *out, size_t out_count);

/* A row's first run of cells: from where the row begins to the row's end, the last buffer address or 16383, whichever
   comes first. It counts cells, not columns. Only a refusal has a count of 0. Refuses 3, 12, 4, 13, 14, 15, 6, 7. */
feldrime_run feldrime_row_run(
    const uint8_t *numbers, size_t numbers_count,
    const uint8_t *chars, size_t chars_count,
    uint32_t row);

/* All cells that a row shows: column c shows chars[cells[c]] and attrs[cells[c]], or in a row of double width those of
   cells[c / 2]. Writes count elements: HACT, or in a row of double width half of it, rounded up; cells has
   FELDRIME_CELLS or more. Refuses 3, 12, 4, 13, 14, 15, 6, 7. */
feldrime_cells feldrime_row_cells(
    const uint8_t *numbers, size_t numbers_count,
    const uint8_t *chars, size_t chars_count,
    uint32_t row,
    uint16_t *cells, size_t cells_count);

/* Turns a sheet into a page with the row table, with the same picture in every field. Writes a table of two bytes a
   row, the low byte first and the upper two bits of the high byte 0, into the lowest stretch of consecutive cells, not
   passing 16383, that no row fetches. Screen start 2 becomes the first of these cells, and IR2[7] is set. All else
   stays: the other numbers, bytes 25 to 31 too, and the other cells. The characters of the table's cells are lost.
   Refuses 3, 12, 4, 13, 14, 15, 6, 16, 17. 16 is for a page that has the row table. */
feldrime_answer feldrime_to_table(
    uint8_t *numbers, size_t numbers_count,
    uint8_t *chars, size_t chars_count);

/* The way back, for a page with the row table and without IR0[7] in which each row after the first begins where the row
   before it ended: it becomes a sheet, with the same picture in every field. Screen start 1 becomes the address where
   row 0 begins, and IR2[7] is cleared. All else stays, the table in its cells too. A sheet moved there and back differs
   only in screen start 2 and in the table's cells. Refuses 3, 12, 4, 13, 14, 15, 6, 16, 19, 18. 16 is for a page
   without the row table.

   To move a board either way, call feldrime_numbers_of, move these numbers, and then set
   board.page = feldrime_board_of(numbers, FELDRIME_NUMBERS).board.page, which leaves place, pointer and resets. A board
   that reached its clock by steps of its own goes on showing the same picture. */
feldrime_answer feldrime_to_sheet(
    uint8_t *numbers, size_t numbers_count,
    const uint8_t *chars, size_t chars_count);

/* The phrase that a row comes from: the first record in the list whose cells include every cell that the row fetches,
   as feldrime_row_cells gives them. If there is none, found and position are 0. Records may come in any order, overlap
   and repeat, and the list may be empty. The cells of a row that runs past the last buffer address, or past 16383, are
   not consecutive: only a record that also holds every cell between holds them. Refuses 3, 12, 4, 13, 14, 15, 6, 7, 20;
   with 20 position is the first such record. */
feldrime_phrase_answer feldrime_phrase_of_row(
    const uint8_t *numbers, size_t numbers_count,
    const uint8_t *chars, size_t chars_count,
    const feldrime_phrase *phrases, size_t phrases_count,
    uint32_t row);

/* Whether two records of the same language and number differ in first or length, and which: of all such pairs the one
   whose earlier record comes first and, of those, the one whose later record does. If there is none, found, earlier and
   later are 0. Refuses 20; then earlier is the first such record. */
feldrime_differ_answer feldrime_phrases_differ(
    const feldrime_phrase *phrases, size_t phrases_count);

/* ---- short forms: a page and a font as structs ---- */

/* About 32 KB, so better static or allocated than on a small stack. The parts may be read and changed at will: to type
   is to write into chars and attrs, and the next call shows it. */
typedef struct {
    uint8_t numbers[FELDRIME_NUMBERS];
    uint8_t chars[FELDRIME_MEMORY];
    uint8_t attrs[FELDRIME_MEMORY];
} feldrime_page;

typedef struct {
    uint16_t words[FELDRIME_WORDS];
    uint8_t flags[FELDRIME_FLAGS];
    uint8_t unshifted[FELDRIME_LIST];
    uint8_t shifted[FELDRIME_LIST];
    uint8_t groups[FELDRIME_GROUPS];
    size_t group_count; /* 0 or 16 */
} feldrime_font;

/* feldrime_page_read */
static inline feldrime_answer feldrime_load_page(
    feldrime_page *page,
    const uint8_t *file, size_t file_count)
{
    return feldrime_page_read(file, file_count, page->numbers, FELDRIME_NUMBERS, page->chars, FELDRIME_MEMORY,
                              page->attrs, FELDRIME_MEMORY);
}

/* feldrime_page_write */
static inline feldrime_answer feldrime_save_page(
    const feldrime_page *page,
    uint8_t *out, size_t out_count)
{
    return feldrime_page_write(page->numbers, FELDRIME_NUMBERS, page->chars, FELDRIME_MEMORY,
                               page->attrs, FELDRIME_MEMORY, out, out_count);
}

/* feldrime_font_read, which sets group_count too */
static inline feldrime_font_answer feldrime_load_font(
    feldrime_font *font,
    const uint8_t *file, size_t file_count)
{
    feldrime_font_answer answer = feldrime_font_read(
        file, file_count, font->words, FELDRIME_WORDS, font->flags, FELDRIME_FLAGS,
        font->unshifted, FELDRIME_LIST, font->shifted, FELDRIME_LIST, font->groups, FELDRIME_GROUPS);
    if (answer.refusal == FELDRIME_DONE)
        font->group_count = answer.groups;
    return answer;
}

/* feldrime_page_size */
static inline feldrime_size feldrime_size_of(
    const feldrime_page *page)
{
    return feldrime_page_size(page->numbers, FELDRIME_NUMBERS);
}

/* feldrime_picture_draw */
static inline feldrime_answer feldrime_draw(
    const feldrime_page *page, const feldrime_font *font,
    uint8_t field,
    uint8_t *out, size_t out_count)
{
    return feldrime_picture_draw(page->numbers, FELDRIME_NUMBERS, page->chars, FELDRIME_MEMORY,
                                 page->attrs, FELDRIME_MEMORY, font->words, FELDRIME_WORDS,
                                 font->flags, FELDRIME_FLAGS, font->unshifted, FELDRIME_LIST,
                                 font->shifted, FELDRIME_LIST, font->groups, font->group_count,
                                 field, out, out_count);
}

/* feldrime_line_draw */
static inline feldrime_answer feldrime_draw_one_line(
    const feldrime_page *page, const feldrime_font *font,
    uint32_t line, uint8_t field,
    uint8_t *out, size_t out_count)
{
    return feldrime_line_draw(page->numbers, FELDRIME_NUMBERS, page->chars, FELDRIME_MEMORY,
                              page->attrs, FELDRIME_MEMORY, font->words, FELDRIME_WORDS,
                              font->flags, FELDRIME_FLAGS, font->unshifted, FELDRIME_LIST,
                              font->shifted, FELDRIME_LIST, font->groups, font->group_count,
                              line, field, out, out_count);
}

/* feldrime_row_cells */
static inline feldrime_cells feldrime_cells_of(
    const feldrime_page *page,
    uint32_t row,
    uint16_t *cells, size_t cells_count)
{
    return feldrime_row_cells(page->numbers, FELDRIME_NUMBERS, page->chars, FELDRIME_MEMORY, row, cells, cells_count);
}

/* feldrime_phrase_of_row */
static inline feldrime_phrase_answer feldrime_phrase_in(
    const feldrime_page *page,
    const feldrime_phrase *phrases, size_t phrases_count,
    uint32_t row)
{
    return feldrime_phrase_of_row(page->numbers, FELDRIME_NUMBERS, page->chars, FELDRIME_MEMORY,
                                  phrases, phrases_count, row);
}

/* feldrime_to_table */
static inline feldrime_answer feldrime_make_table(
    feldrime_page *page)
{
    return feldrime_to_table(page->numbers, FELDRIME_NUMBERS, page->chars, FELDRIME_MEMORY);
}

/* feldrime_to_sheet */
static inline feldrime_answer feldrime_make_sheet(
    feldrime_page *page)
{
    return feldrime_to_sheet(page->numbers, FELDRIME_NUMBERS, page->chars, FELDRIME_MEMORY);
}

/* ---- for an editor ---- */

/* The whole state of a board, for an editor that steps it clock by clock. Any numbers may be passed: the calls judge
   them. Compare boards field by field, since there are unused bytes between the fields.

   A board holds neither memories nor font. They are passed to each step, which shows what they hold at that moment; to
   type is to write into chars and attrs, and takes no call.

   A frame has VT = rows x scan lines + VFP + VSYNC + VBP lines, in this order: the visible ones come first, from line 0
   on, with the numbers that they have in a picture. A line has HT clocks: HACT active ones, from clock 0 on, then front
   porch, HSYNC and HBP. A cell is shown on each active clock of a visible line. BLANK is 1 on all other clocks, and
   while the display is off on these too. At a frame's end the field goes up by one, and from 255 to 0. At clock 0, from
   which clocks are counted, all of the place is 0.

   latch is the attribute byte that is valid before the beam's cell, and the one that the row began with; 0 is none. In
   field mode a fetch of a cell with AFLG sets it, with the display off too. Row 0 of a frame begins with none, a later
   row with what the beam has then, and each line of a row with the row's own. A latch passed without AFLG, or without
   field mode, counts as 0, and a step leaves 0.

   code is that of the beam's row, and is taken over with the row's start. A row of double width fetches on even
   columns, shows that cell and its cursor again on the odd one after, and moves on then, or after an even column that
   is the line's last. In field mode a cell with AFLG sets the latch on its even column, and its odd column shows what
   is latched then. Two bits of code count, and none without IR0[7]; a step leaves what counts. */
typedef struct {
    struct {
        uint8_t version; /* 1, 2 or 3; any other counts as 1, and is written as 1 */
        uint8_t irs[15];
        struct {
            uint16_t start1, cursor, start2;
        } starts;
        uint8_t switches; /* as in a page's numbers */
        struct {
            uint32_t dots;
            uint8_t strike;
            uint8_t chip; /* 0 for A, 1 for B, above 1 is 12; in any version but 3 it is ignored and kept */
        } video;
    } page;
    struct {
        uint8_t field;
        uint32_t line, clock; /* line of the frame, clock of the line */
        struct {
            uint16_t address;
            uint8_t latch;
        } beam; /* what the beam carries */
        struct {
            uint16_t address;
            uint8_t latch;
            uint8_t code; /* 0 plain, 1 double width, 2 and 3 its top and bottom half; two bits count */
        } row; /* what its row began with */
    } place;
    uint8_t pointer; /* the IR that a write at address 0 goes to */
    uint8_t resets;  /* master resets in a row: 0 and 1 are an inactive board, 2 and above an active one */
} feldrime_board;

typedef struct {
    uint32_t refusal, beside;
    feldrime_board board;
} feldrime_board_answer;

typedef struct {
    uint32_t refusal, beside;
    uint32_t byte;
} feldrime_byte;

typedef struct {
    uint32_t refusal, beside;
    uint32_t hsync, vsync, blank, cursor, blink; /* the clock's signals, 0 or 1 */
    uint32_t address;                            /* of the cell fetched or, off the active clocks, held */
    uint8_t dots[12];                            /* levels; 0 in the places past the cell's dots */
} feldrime_step_answer;

/* The board after power on: version 1, and zeros throughout, so it is inactive until two master resets in a row. A step
   refuses it until its IRs are written (13) and its dots are set (6). */
feldrime_board feldrime_power(void);

/* An active board with a page's numbers, at clock 0, its pointer at IR0. Refuses 3, 12, 4, 13, 14, 15, 6 and then gives
   the board after power on. */
feldrime_board_answer feldrime_board_of(
    const uint8_t *numbers, size_t numbers_count);

/* The way back: a board's page as numbers, for feldrime_page_write and the calls that draw. Writes all of numbers.
   Place, pointer and resets have no effect. Refuses 3, 12, 4, 13, 14, 15, 6. */
feldrime_answer feldrime_numbers_of(
    feldrime_board board,
    uint8_t *numbers, size_t numbers_count);

/* The board with these dots in a cell, strike line, BKGND and RBLANK; for the last two any number but 0 is on. Refuses
   12, 6 and then gives the old board. 12 is for the board's three addresses, switches and chip and for the strike line
   passed, 6 for the dots passed; nothing else is judged, neither place nor pointer. Switches 4 and 5 and the chip are
   kept. */
feldrime_board_answer feldrime_set_video(
    feldrime_board board,
    uint8_t dots, uint8_t strike, uint8_t bkgnd, uint8_t rblank);

/* Writes a byte to a register. Refuses 12, 7, 9, 10 and then gives the old board. 12 is for the board's three
   addresses, switches, strike line and chip, 7 for its pointer alone: the place, the IRs and the dots are not judged
   here.

     0       the IR that the pointer names; the pointer then moves on, and stays at IR14
     1       a command, in hex: 00 master reset; 10 to 1E load IR pointer; 28, 29 display off, on; 30, 31 cursor off,
             on; 38, 39 both off, on; in the last six bit 2 is ignored
     2, 3    screen start 1, low byte, high byte, of which six bits count
     4, 5    cursor address, likewise
     6, 7    screen start 2, likewise

   A master reset sets the place to clock 0, its field too, the pointer to IR0, and display and cursor off. All else is
   kept: version, IRs, addresses, the other switches, dots, strike line and chip. An active board stays active.

   An inactive board takes master resets only. Any other write is answered by 0 and only ends a run of resets. The board
   can still be read, set by feldrime_set_video and stepped; its display is off whatever the switch says.

   A write to an IR can make the line or frame so short that the board's place is out of range, or leave a page that
   cannot be drawn: the next step is then refused 7, or 4, 13, 14 or 15. The ways out of 7: write the IR as it was;
   write a master reset; set place.line and place.clock to 0; take the board through feldrime_numbers_of and
   feldrime_board_of, which begins at clock 0 and leaves display and cursor as they were. feldrime_state_at is not one:
   it judges the place too. */
feldrime_board_answer feldrime_register_write(
    feldrime_board board,
    uint8_t address, uint8_t byte);

/* Reads a register: addresses 2 to 7 as above, 0 and 1 give 0. Refuses 12, 7, 9; 12 and 7 as for a write. */
feldrime_byte feldrime_register_read(
    feldrime_board board,
    uint8_t address);

/* The board at clock n, counted from clock 0 and not from the board's place, which is judged all the same. Refuses 3,
   12, 4, 13, 14, 15, 6, 7 and then gives the old board. */
feldrime_board_answer feldrime_state_at(
    feldrime_board board,
    const uint8_t *chars, size_t chars_count,
    const uint8_t *attrs, size_t attrs_count,
    uint32_t n);

/* One clock: gives what the board puts out at its place, and moves the board itself on to the next clock. Refuses 3,
   12, 4, 13, 14, 15, 6, 7 and then leaves the board as it was. 7 is for a line of VT or above, a clock of HT or above,
   an address or row start above 16383, and a pointer above 14. */
feldrime_step_answer feldrime_step(
    feldrime_board *board,
    const uint8_t *chars, size_t chars_count,
    const uint8_t *attrs, size_t attrs_count,
    const uint16_t *words, size_t words_count,
    const uint8_t *flags, size_t flags_count,
    const uint8_t *unshifted, size_t unshifted_count,
    const uint8_t *shifted, size_t shifted_count,
    const uint8_t *groups, size_t groups_count);

/* feldrime_step, with the memories of a page; the page's numbers have no effect, since the board has its own */
static inline feldrime_step_answer feldrime_tick(
    feldrime_board *board,
    const feldrime_page *page, const feldrime_font *font)
{
    return feldrime_step(board, page->chars, FELDRIME_MEMORY, page->attrs, FELDRIME_MEMORY,
                         font->words, FELDRIME_WORDS, font->flags, FELDRIME_FLAGS,
                         font->unshifted, FELDRIME_LIST, font->shifted, FELDRIME_LIST,
                         font->groups, font->group_count);
}

#ifdef __cplusplus
}
#endif

#endif
