/* The plain C step: one clock of a board that is altered where it stands. */
#include "rules.h"
#include "stepper.h"

/* A latch byte as it counts: none without AFLG, and none in character mode. */
static unsigned settled(unsigned latch, unsigned field_mode)
{
    return field_mode && latch & AFLG ? latch : 0;
}

feldrime_step_answer plain_step(
    feldrime_board *board,
    const uint8_t *chars, size_t chars_count,
    const uint8_t *attrs, size_t attrs_count,
    const uint16_t *words, size_t words_count,
    const uint8_t *flags, size_t flags_count,
    const uint8_t *unshifted, size_t unshifted_count,
    const uint8_t *shifted, size_t shifted_count,
    const uint8_t *groups, size_t groups_count)
{
    static const uint8_t vsyncs[] = { 3, 1, 5, 7 };

    feldrime_step_answer a = { 0 };

    if (chars_count != MEMORY || attrs_count != MEMORY || words_count != CHARACTERS * LIST || flags_count != CHARACTERS
        || unshifted_count != LIST || shifted_count != LIST || group_count_refused(groups_count)) {
        a.refusal = 3;
        return a;
    }

    unsigned start1 = board->page.starts.start1;
    unsigned cursor = board->page.starts.cursor;
    unsigned start2 = board->page.starts.start2;
    unsigned switches = board->page.switches;
    unsigned dots = board->page.video.dots;
    unsigned strike = board->page.video.strike;
    unsigned version = board->page.version;
    unsigned chip = board->page.video.chip;

    if (start1 >= MEMORY || cursor >= MEMORY || start2 >= MEMORY || switches > most_switches(version)
        || strike > 15 || chip_refused(version, chip) || groups_refused(groups, groups_count)) {
        a.refusal = 12;
        return a;
    }

    const uint8_t *ir = board->page.irs;
    if (reserved_set(ir)) {
        a.refusal = 4;
        return a;
    }

    unsigned hact = ir[5] + 1u;
    unsigned hsync = 2u * (ir[2] >> 3 & 15) + 2;
    unsigned hbp = 4u * (ir[2] & 7) - 1;
    unsigned ht = 2u * ((ir[1] & 127) + 1 + 2 * hsync);
    struct porches porches = porches_of(ir);
    if (porches.refusal != 0) {
        a.refusal = porches.refusal;
        a.beside = porches.missing;
        return a;
    }

    if (dots < 6 || dots > 12) {
        a.refusal = 6;
        return a;
    }

    unsigned lines = (ir[0] >> 3 & 15) + 1u;
    unsigned rows = (ir[4] & 127) + 1u;
    unsigned visible = rows * lines;
    unsigned vfp = 4u * (ir[3] >> 5) + 4;
    unsigned vsync = vsyncs[ir[7] >> 6];
    unsigned vbp = 2u * (ir[3] & 31) + 4;
    unsigned vt = visible + vfp + vsync + vbp;

    unsigned line = board->place.line;
    unsigned clock = board->place.clock;
    unsigned at = board->place.beam.address;
    unsigned row_start = board->place.row.address;
    unsigned field = board->place.field;
    if (line >= vt || clock >= ht || at >= MEMORY || row_start >= MEMORY || board->pointer > 14) {
        a.refusal = 7;
        return a;
    }

    unsigned field_mode = switches & FIELD_MODE;
    unsigned latch = settled(board->place.beam.latch, field_mode);
    unsigned row_latch = settled(board->place.row.latch, field_mode);
    unsigned code = ir[0] & 128 ? board->place.row.code & 3 : PLAIN_ROW;

    /* An inactive board has its display off. Both blink periods are powers of two. */
    unsigned bkgnd = (switches & BKGND) != 0;
    unsigned shown = switches & DISPLAY && board->resets >= 2;
    unsigned blink_period = ir[4] & 128 ? 128 : 64;
    unsigned cursor_period = ir[7] & 16 ? 64 : 32;
    unsigned active = line < visible && clock < hact;
    unsigned hsync_begin = ht - hbp - hsync;
    unsigned vsync_begin = visible + vfp;

    a.hsync = clock >= hsync_begin && clock < hsync_begin + hsync;
    a.vsync = line >= vsync_begin && line < vsync_begin + vsync;
    a.blank = !active || !shown;
    a.blink = (field & (blink_period - 1)) >= blink_period / 4 * 3;

    unsigned bits = 0;
    uint8_t surround = bkgnd && !(switches & RBLANK) ? GRAY : BLACK;
    uint8_t symbol = surround;
    unsigned next = at;

    if (active) {
        unsigned row = line / lines;
        unsigned row_line = line % lines;

        if (clock == 0) {
            if (row_line != 0) {
                at = row_start;
                latch = row_latch;
            } else if (ir[2] & 128) {
                struct row_entry entry = row_entry(ir, chars, start2, row);
                at = entry.start;
                code = entry.code;
            } else if (row == 0) {
                at = start1;
            }
            if (line == 0)
                latch = 0;
            row_start = at;
            row_latch = latch;
        }

        unsigned scan = scan_of(code, row_line, lines);
        unsigned wide = code != PLAIN_ROW;
        unsigned again = wide && clock % 2 == 1; /* the cell of the column before */

        /* With the display off it latches all the same. In field mode a cell's second column shows what is latched. */
        unsigned sets = attrs[at] & AFLG;
        unsigned attr = sets && !(field_mode && again) ? attrs[at] : latch;
        if (field_mode)
            latch = attr;

        a.cursor = switches & CURSOR && at == cursor && ir[6] >> 4 <= scan && scan <= (ir[6] & 15u)
            && (!(ir[7] & 32) || (field & (cursor_period - 1)) < cursor_period / 2);

        if (shown) {
            unsigned shape = sets && setting_is_bare(switches) ? 0 : chars[at];

            if (attr & graphics_of(version, chip)) {
                bits = graphics_word(shape, groups_count == 0 ? 0 : groups[scan]);
            } else if (shape & 128) {
                unsigned character = shape & 127;
                unsigned place = position(flags[character] ? shifted : unshifted, scan);
                if (place < LIST)
                    bits = words[character * LIST + place] & 1023;
            }
            if (dots > 10)
                bits <<= 1; /* the zero before D0 */
            if ((attr & UNDERLINE && (ir[7] & 15u) == scan) || (attr & strike_of(version, chip) && strike == scan))
                bits = 4095;
            if (wide)
                bits = doubled(bits) >> (again ? dots : 0);

            unsigned reverse = (attr & REVERSE) ^ a.cursor;
            uint8_t tone = attr & HIGHLIGHT ? WHITE : GRAY;
            symbol = bkgnd ^ reverse ? BLACK : tone;
            surround = bkgnd ^ reverse ? tone : BLACK;
            if (attr & BLANK || (attr & BLINK && a.blink))
                symbol = surround;
        }

        if (!wide || again || clock + 1 == hact)
            next = at == last_address(ir) ? first_address(ir) : (at + 1) % MEMORY;
        else
            next = at;
    }

    a.address = at;
    for (unsigned k = 0; k < dots; k++) {
        a.dots[k] = bits & 1 ? symbol : surround;
        bits >>= 1;
    }

    board->place.beam.address = next;
    board->place.beam.latch = latch;
    board->place.row.address = row_start;
    board->place.row.latch = row_latch;
    board->place.row.code = code;
    if (clock + 1 < ht) {
        board->place.clock = clock + 1;
        return a;
    }
    board->place.clock = 0;
    if (line + 1 < vt) {
        board->place.line = line + 1;
        return a;
    }
    board->place.line = 0;
    board->place.field = field + 1; /* from 255 to 0 */
    return a;
}
