/* What the C around the library shares: sizes, the bits of switches and attributes, the levels, porches, what a page and a font are refused for,
   addresses, rows and their codes, a list's search, a word of graphics. */
#ifndef RULES_H
#define RULES_H

#include "feldrime.h"

#define MEMORY 16384u    /* bytes in each memory */
#define CHARACTERS 128u  /* characters in the font */
#define LIST 9u          /* words a character, line numbers in a list */
#define GROUPS 16u       /* groups of a font that has some */

enum { DISPLAY = 1, CURSOR = 2, BKGND = 4, RBLANK = 8, FIELD_MODE = 16, ACD = 32 };                  /* switches */
enum { REVERSE = 1, BLANK = 2, BLINK = 4, UNDERLINE = 8, HIGHLIGHT = 16, STRIKE = 32, AFLG = 128 };  /* attributes */
enum { GRAPHICS = STRIKE };                                                                          /* on chip B */
enum { BLACK, GRAY, WHITE };

static inline int version_refused(unsigned version)
{
    return version < 1 || version > 3;
}

/* All switches that a page of a version may have set. */
static inline unsigned most_switches(unsigned version)
{
    return version == 2 || version == 3 ? 63 : 15;
}

/* Versions 1 and 2 mean chip A, whatever stands in the chip's place. */
static inline int chip_refused(unsigned version, unsigned chip)
{
    return version == 3 && chip > 1;
}

/* The attribute that makes graphics of a cell, and the one that strikes it: each chip has one of them. */
static inline unsigned graphics_of(unsigned version, unsigned chip)
{
    return version == 3 && chip == 1 ? GRAPHICS : 0;
}

static inline unsigned strike_of(unsigned version, unsigned chip)
{
    return version == 3 && chip == 1 ? 0 : STRIKE;
}

/* A font has 0 groups or 16, each of 0 to 4. */
static inline int group_count_refused(size_t count)
{
    return count != 0 && count != GROUPS;
}

static inline int groups_refused(const uint8_t *groups, size_t count)
{
    int above = 0;

    for (size_t i = 0; i < count; i++)
        above |= groups[i] > 4;
    return above;
}

/* Two bits of a code by a group, five dots each. */
static inline unsigned graphics_word(unsigned code, unsigned group)
{
    unsigned two = group == 0 ? 0 : code >> 2 * (group - 1) & 3;

    return (two & 1) * 0x01F + (two >> 1) * 0x3E0;
}

/* Whether a cell with AFLG is bare of its character. */
static inline unsigned setting_is_bare(unsigned switches)
{
    return (switches & (FIELD_MODE | ACD)) == FIELD_MODE;
}

/* The buffer's first and last address. */
static inline unsigned first_address(const uint8_t *ir)
{
    return (ir[9] & 15u) * 256 + ir[8];
}

static inline unsigned last_address(const uint8_t *ir)
{
    return ((ir[9] >> 4) + 1u) * 1024 - 1;
}

/* What the clocks of a line are refused for, and by how many clocks its front porch misses 2. */
struct porches {
    uint32_t refusal, missing;
};

static inline struct porches porches_of(const uint8_t *ir)
{
    unsigned hsync = 2u * (ir[2] >> 3 & 15) + 2;
    unsigned hbp_code = ir[2] & 7;
    unsigned ht = 2u * ((ir[1] & 127) + 1 + 2 * hsync);
    unsigned rest = ir[5] + 1u + hsync + 4 * hbp_code - 1;

    if (hbp_code == 0)
        return (struct porches){ 13, 0 };
    if (ht >= rest + 2)
        return (struct porches){ 0, 0 };
    return (struct porches){ ht < rest ? 14 : 15, rest + 2 - ht };
}

/* What is refused by 4. */
static inline int reserved_set(const uint8_t *ir)
{
    return ir[1] & 128 || (ir[0] & 128 && !(ir[2] & 128));
}

/* An address in a page's numbers. */
static inline unsigned big_endian(const uint8_t *pair)
{
    return pair[0] * 256u + pair[1];
}

/* What a page's numbers are refused for: 12, 4, 13, 14, 15, 6. */
static inline feldrime_answer page_refused(const uint8_t *numbers)
{
    const uint8_t *ir = numbers + 1;
    struct porches porches = porches_of(ir);

    if (big_endian(numbers + 16) >= MEMORY || big_endian(numbers + 18) >= MEMORY || big_endian(numbers + 20) >= MEMORY
        || numbers[22] > most_switches(numbers[0]) || numbers[24] > 15 || chip_refused(numbers[0], numbers[25]))
        return (feldrime_answer){ 12, 0 };
    if (reserved_set(ir))
        return (feldrime_answer){ 4, 0 };
    if (porches.refusal != 0)
        return (feldrime_answer){ porches.refusal, porches.missing };
    return (feldrime_answer){ numbers[23] < 6 || numbers[23] > 12 ? 6 : 0, 0 };
}

/* The codes of rows: plain, double width, and its top and bottom half. */
enum { PLAIN_ROW, WIDE_ROW, TOP_ROW, BOTTOM_ROW, CODES };

/* Where a row begins, and its code. */
struct row_entry {
    unsigned start, code;
};

/* A row's entry of the table that stands at an address. */
static inline struct row_entry row_entry(const uint8_t *ir, const uint8_t *chars, unsigned table, unsigned row)
{
    unsigned low = chars[(table + 2 * row) % MEMORY], high = chars[(table + 2 * row + 1) % MEMORY];

    return (struct row_entry){ low + (high & 63) * 256, ir[0] & 128 ? high >> 6 : PLAIN_ROW };
}

/* The address that k moves lead to. */
static inline unsigned moved(unsigned at, unsigned k, unsigned first, unsigned last)
{
    unsigned to_last = (last - at) % MEMORY;
    unsigned round = (last - first) % MEMORY + 1;

    if (k <= to_last)
        return (at + k) % MEMORY;
    return (first + (k - to_last - 1) % round) % MEMORY;
}

/* The same of any row of a page. */
static inline struct row_entry row_begin(const uint8_t *numbers, const uint8_t *chars, unsigned row)
{
    const uint8_t *ir = numbers + 1;

    if (ir[2] & 128)
        return row_entry(ir, chars, big_endian(numbers + 20), row);
    unsigned start = moved(big_endian(numbers + 16), row * (ir[5] + 1u), first_address(ir), last_address(ir));
    return (struct row_entry){ start, PLAIN_ROW };
}

/* How many cells a row of so many columns fetches. */
static inline unsigned cells_in(unsigned code, unsigned columns)
{
    return code == PLAIN_ROW ? columns : (columns + 1) / 2;
}

/* The scan line that a line of a row shows, where a row has so many. */
static inline unsigned scan_of(unsigned code, unsigned line, unsigned lines)
{
    return code == TOP_ROW ? line / 2 : code == BOTTOM_ROW ? (lines + line) / 2 : line;
}

/* Each of twelve dots twice: they are moved apart, in groups of eight, four, two and one. */
static inline unsigned doubled(unsigned bits)
{
    bits = (bits | bits << 8) & 0x0F00FF;
    bits = (bits | bits << 4) & 0x0F0F0F;
    bits = (bits | bits << 2) & 0x333333;
    bits = (bits | bits << 1) & 0x555555;
    return bits * 3;
}

/* The first position in a list that equals the scan line, or LIST for none. */
static inline unsigned position(const uint8_t *list, unsigned scan)
{
    unsigned i = 0;

    while (i < LIST && (list[i] & 15u) != scan)
        i++;
    return i;
}

#endif
