/* The plain C line drawer, the measure for the others. */
#include <string.h>

#include "drawer.h"
#include "rules.h"

/* Writes one cell: a dot for each bit, the lowest first. */
static void put_dots(uint8_t *out, unsigned dots, unsigned bits, uint8_t symbol, uint8_t surround)
{
    for (unsigned k = 0; k < dots; k++) {
        out[k] = bits & 1 ? symbol : surround;
        bits >>= 1;
    }
}

static feldrime_answer answer(uint32_t number)
{
    return (feldrime_answer){ number, 0 };
}

/* The attribute byte that is latched when a row begins, sought from the end of the row before it backward; 0 for none. */
static unsigned latched_before(const uint8_t *numbers, const uint8_t *chars, const uint8_t *attrs, unsigned row)
{
    const uint8_t *ir = numbers + 1;

    while (row-- > 0) {
        struct row_entry entry = row_begin(numbers, chars, row);

        for (unsigned c = cells_in(entry.code, ir[5] + 1u); c-- > 0;) {
            unsigned at = moved(entry.start, c, first_address(ir), last_address(ir));

            if (attrs[at] & AFLG)
                return attrs[at];
        }
    }
    return 0;
}

feldrime_answer plain_line_draw(
    const uint8_t *numbers, size_t numbers_count,
    const uint8_t *chars, size_t chars_count,
    const uint8_t *attrs, size_t attrs_count,
    const uint16_t *words, size_t words_count,
    const uint8_t *flags, size_t flags_count,
    const uint8_t *unshifted, size_t unshifted_count,
    const uint8_t *shifted, size_t shifted_count,
    const uint8_t *groups, size_t groups_count,
    uint32_t line, uint8_t field,
    uint8_t *out, size_t out_count)
{
    if (numbers_count != 32 || version_refused(numbers[0]) || chars_count != MEMORY || attrs_count != MEMORY
        || words_count != CHARACTERS * LIST || flags_count != CHARACTERS
        || unshifted_count != LIST || shifted_count != LIST || group_count_refused(groups_count))
        return answer(3);

    const uint8_t *ir = numbers + 1;
    unsigned start1 = big_endian(numbers + 16);
    unsigned cursor = big_endian(numbers + 18);
    unsigned start2 = big_endian(numbers + 20);
    unsigned switches = numbers[22];
    unsigned dots = numbers[23];
    unsigned strike = numbers[24];

    if (start1 >= MEMORY || cursor >= MEMORY || start2 >= MEMORY || switches > most_switches(numbers[0])
        || strike > 15 || chip_refused(numbers[0], numbers[25]) || groups_refused(groups, groups_count))
        return answer(12);

    if (reserved_set(ir))
        return answer(4);

    unsigned hact = ir[5] + 1u;
    struct porches porches = porches_of(ir);
    if (porches.refusal != 0)
        return (feldrime_answer){ porches.refusal, porches.missing };

    if (dots < 6 || dots > 12)
        return answer(6);

    unsigned lines = (ir[0] >> 3 & 15) + 1u;
    unsigned rows = (ir[4] & 127) + 1u;
    if (line >= rows * lines)
        return answer(7);

    if (out_count < hact * dots)
        return answer(8);

    unsigned bkgnd = (switches & BKGND) != 0;
    if (!(switches & DISPLAY)) {
        memset(out, bkgnd && !(switches & RBLANK) ? GRAY : BLACK, hact * dots);
        return answer(0);
    }

    unsigned row = line / lines;
    struct row_entry entry = row_begin(numbers, chars, row);
    unsigned at = entry.start;
    unsigned wide = entry.code != PLAIN_ROW;
    unsigned scan = scan_of(entry.code, line % lines, lines);
    unsigned first = first_address(ir);
    unsigned last = last_address(ir);

    unsigned field_mode = switches & FIELD_MODE;
    unsigned bare = setting_is_bare(switches);
    unsigned latch = field_mode ? latched_before(numbers, chars, attrs, row) : 0;

    unsigned unshifted_word = position(unshifted, scan);
    unsigned shifted_word = position(shifted, scan);
    unsigned graphics = graphics_of(numbers[0], numbers[25]);
    unsigned group = groups_count == 0 ? 0 : groups[scan];

    unsigned blink_period = ir[4] & 128 ? 128 : 64;
    unsigned cursor_period = ir[7] & 16 ? 64 : 32;
    int blink = field % blink_period >= blink_period / 4 * 3;
    int gate = switches & CURSOR && ir[6] >> 4 <= scan && scan <= (ir[6] & 15u)
        && (!(ir[7] & 32) || field % cursor_period < cursor_period / 2);

    /* The attributes that on this line light all of a cell, and those that hide its symbol. */
    unsigned struck = strike_of(numbers[0], numbers[25]);
    unsigned lights = ((ir[7] & 15u) == scan ? UNDERLINE : 0) | (strike == scan ? struck : 0);
    unsigned hides = BLANK | (blink ? BLINK : 0);

    for (unsigned c = 0; c < hact; c += 1 + wide) {
        unsigned sets = attrs[at] & AFLG;
        unsigned attr = sets ? attrs[at] : latch;
        unsigned code = sets && bare ? 0 : chars[at];

        if (field_mode)
            latch = attr;

        unsigned character = code & 127;
        unsigned place = flags[character] ? shifted_word : unshifted_word;
        unsigned bits = code & 128 && place < LIST ? words[character * LIST + place] & 1023 : 0;
        if (attr & graphics)
            bits = graphics_word(code, group);
        if (dots > 10)
            bits <<= 1; /* the zero before D0 */
        if (attr & lights)
            bits = 4095;

        unsigned reverse = (attr & REVERSE) ^ (gate && at == cursor);
        uint8_t tone = attr & HIGHLIGHT ? WHITE : GRAY;
        uint8_t symbol = bkgnd ^ reverse ? BLACK : tone;
        uint8_t surround = bkgnd ^ reverse ? tone : BLACK;
        if (attr & hides)
            symbol = surround;

        /* A cell of double width has two columns, but at the end of an odd row one. */
        if (wide)
            put_dots(out + c * dots, c + 1 < hact ? 2 * dots : dots, doubled(bits), symbol, surround);
        else
            put_dots(out + c * dots, dots, bits, symbol, surround);
        at = at == last ? first : (at + 1) % MEMORY;
    }
    return answer(0);
}
