/* The whole picture in C as someone draws it who knows the machine: the mark beyond plain C.
 *
 * - A cell is fetched once a row and drawn on all the row's lines before the next one: its look stays in registers.
 * - Shapes are spread to a byte a dot once a picture, levels are worked out once a picture by attribute.
 * - Sixteen dots are stored at once, or eight with 6 and 7 dots. What a store writes past its cell is written again by the
 *   cell to the right, so that only a row's last cell needs care.
 * - No branch goes by what a cell holds. Lines that can be lit, and the cursor, are drawn over.
 * - Field mode goes over a row's cells once more before they are drawn, and character mode skips that.
 * - A row of double width doubles its shapes' bytes as it draws them, and has loops of its own.
 * - Graphics are 256 glyphs more, which a page of chip B has.
 *
 * Bytes of a number stand in memory lowest first, as on x86-64 and on Arm. */
#include <string.h>

#include "drawer.h"
#include "rules.h"

#define MOST_LINES 16u
#define MOST_CELLS 256u
#define NO_CHARACTER CHARACTERS /* the glyph of a code that shows none */
#define FIRST_GRAPHIC (CHARACTERS + 1)
#define GRAPHIC_CODES 256u
#define GLYPHS (FIRST_GRAPHIC + GRAPHIC_CODES)
#define LOOKS 32u               /* reverse, blank, blink, underline and highlight are the low five bits */
#define MOST_LIT 4u             /* lines of a row that an attribute can light: two, or in a half two twice */
#define EVERY_BYTE 0x0101010101010101u

/* Two numbers of eight dots, a byte each. */
typedef uint64_t pair __attribute__((vector_size(16)));
typedef uint8_t bytes __attribute__((vector_size(16)));

/* A cell's levels: the surround's in every byte, and what makes the symbol's of it. */
struct look {
    uint64_t surround, change;
};

/* The scan line of each line of a row, and the lines that an attribute can light. */
struct scans {
    uint8_t scan[MOST_LINES], lit[MOST_LIT], lit_count;
};

struct plan {
    const uint8_t *ir, *chars, *attrs;
    unsigned hact, lines, rows, dots, width; /* width is of a line, in dots */
    unsigned first, last, start1, start2, table;
    unsigned field_mode, bare; /* bare: a cell with AFLG shows no character */
    unsigned graphics;         /* the attribute of a cell that shows graphics, 0 on chip A */
    unsigned cursor, cursor_from, cursor_to; /* the cursor's address; its scan lines are from .. to - 1, or none */
    uint8_t lights[MOST_LINES];              /* the attributes that light a scan line */
    struct scans scans[CODES];               /* by the row's code */
    struct look looks[LOOKS];
    union {
        uint64_t narrow[GLYPHS * MOST_LINES];
        pair wide[GLYPHS * MOST_LINES];
    } shapes; /* a glyph's lines after one another, FF hex for a dot of the symbol */
};

struct row {
    unsigned code, cells;
    unsigned cursors;            /* how many cells the cursor is at, */
    uint8_t at[MOST_CELLS];      /* and which */
    uint8_t codes[MOST_CELLS];
    uint8_t attrs[MOST_CELLS];
};

/* ---- once a picture ---- */

/* Eight bits as eight bytes, 0 or FF hex, the lowest first. */
#define BYTE(bits, k) ((uint64_t)((bits) >> (k) & 1) * 255 << 8 * (k))
#define HALF(bits, k) (BYTE(bits, k) | BYTE(bits, k + 1) | BYTE(bits, k + 2) | BYTE(bits, k + 3))
#define SPREAD(bits) (HALF(bits, 0) | HALF(bits, 4))
#define SPREAD4(bits) SPREAD(bits), SPREAD((bits) + 1), SPREAD((bits) + 2), SPREAD((bits) + 3)
#define SPREAD16(bits) SPREAD4(bits), SPREAD4((bits) + 4), SPREAD4((bits) + 8), SPREAD4((bits) + 12)
#define SPREAD64(bits) SPREAD16(bits), SPREAD16((bits) + 16), SPREAD16((bits) + 32), SPREAD16((bits) + 48)

static const uint64_t spreads[256] = { SPREAD64(0), SPREAD64(64), SPREAD64(128), SPREAD64(192) };

static inline uint64_t spread(unsigned bits)
{
    return spreads[bits & 255];
}

static void make_looks(struct plan *p, unsigned bkgnd, unsigned blink)
{
    unsigned hides = BLANK | (blink ? BLINK : 0);

    for (unsigned mark = 0; mark < LOOKS; mark++) {
        unsigned tone = mark & HIGHLIGHT ? WHITE : GRAY;
        unsigned swapped = bkgnd ^ (mark & REVERSE);
        unsigned symbol = swapped ? BLACK : tone;
        unsigned surround = swapped ? tone : BLACK;

        if (mark & hides)
            symbol = surround;
        p->looks[mark].surround = surround * EVERY_BYTE;
        p->looks[mark].change = (surround ^ symbol) * EVERY_BYTE;
    }
}

static void make_lights(struct plan *p, unsigned underline, unsigned strike)
{
    memset(p->lights, 0, sizeof p->lights);
    p->lights[underline] |= UNDERLINE;
    p->lights[strike] |= p->graphics ? 0 : STRIKE;
    for (unsigned code = 0; code < CODES; code++) {
        struct scans *s = &p->scans[code];

        s->lit_count = 0;
        for (unsigned line = 0; line < p->lines; line++) {
            s->scan[line] = scan_of(code, line, p->lines);
            if (p->lights[s->scan[line]])
                s->lit[s->lit_count++] = line;
        }
    }
}

static inline void put_shape(struct plan *p, unsigned glyph, unsigned line, unsigned word)
{
    unsigned bits = word << (p->dots > 10);

    if (p->dots > 8)
        p->shapes.wide[glyph * p->lines + line] = (pair){ spread(bits), spread(bits >> 8) };
    else
        p->shapes.narrow[glyph * p->lines + line] = spread(bits);
}

static void make_graphics(struct plan *p, const uint8_t *groups, size_t count)
{
    for (unsigned code = 0; code < GRAPHIC_CODES; code++)
        for (unsigned line = 0; line < p->lines; line++)
            put_shape(p, FIRST_GRAPHIC + code, line, graphics_word(code, count == 0 ? 0 : groups[line]));
}

static void make_shapes(
    struct plan *p, const uint16_t *words, const uint8_t *flags, const uint8_t *unshifted, const uint8_t *shifted)
{
    unsigned lines = p->lines;
    uint8_t places[2][MOST_LINES];
    uint16_t glyph[LIST + 1] = { 0 }; /* its words, and zero at the place of none */

    for (unsigned line = 0; line < lines; line++) {
        places[0][line] = position(unshifted, line);
        places[1][line] = position(shifted, line);
    }
    for (unsigned g = 0; g <= NO_CHARACTER; g++) {
        const uint8_t *place = places[g < NO_CHARACTER && flags[g]];

        if (g < NO_CHARACTER)
            memcpy(glyph, words + g * LIST, LIST * sizeof *words);
        else
            memset(glyph, 0, sizeof glyph);
        for (unsigned line = 0; line < lines; line++)
            put_shape(p, g, line, glyph[place[line]] & 1023u);
    }
}

/* ---- once a row ---- */

/* Copies the row's cells, stretch by stretch, and gives the address after them. */
static unsigned fetch_row(const struct plan *p, unsigned at, struct row *row)
{
    unsigned cell = 0;

    row->cells = cells_in(row->code, p->hact);
    row->cursors = 0;
    while (cell < row->cells) {
        unsigned end = at <= p->last ? p->last + 1 : MEMORY;
        unsigned count = end - at < row->cells - cell ? end - at : row->cells - cell;

        memcpy(row->codes + cell, p->chars + at, count);
        memcpy(row->attrs + cell, p->attrs + at, count);
        if (p->cursor - at < count)
            row->at[row->cursors++] = cell + (p->cursor - at);
        cell += count;
        at += count;
        if (at == p->last + 1)
            at = p->first;
        else if (at == MEMORY)
            at = 0;
    }
    return at;
}

/* Field mode: each of the row's cells gets the attribute byte that is valid there. Gives the one at the row's end. */
static unsigned run_on(const struct plan *p, struct row *row, unsigned latch)
{
    for (unsigned cell = 0; cell < row->cells; cell++) {
        unsigned attr = row->attrs[cell], sets = attr >> 7;

        latch = sets ? attr : latch;
        row->attrs[cell] = latch;
        row->codes[cell] = sets & p->bare ? 0 : row->codes[cell];
    }
    return latch;
}

/* The glyph of a cell with this mark, where an attribute may make graphics of it. */
static inline unsigned glyph_of(unsigned code, unsigned mark, unsigned graphics)
{
    unsigned character = code ^ 128, letter = character < NO_CHARACTER ? character : NO_CHARACTER;

    return mark & graphics ? FIRST_GRAPHIC + code : letter;
}

/* The attribute byte, 0 without AFLG. */
static inline unsigned mark_of(unsigned attr)
{
    return attr & (0u - (attr >> 7));
}

static inline uint64_t all_if(unsigned bits)
{
    return 0 - (uint64_t)(bits != 0);
}

/* A cell on the lines from .. to - 1, and not a byte beside it. */
static void draw_cell(const struct plan *p, uint8_t *out, unsigned glyph, unsigned mark, unsigned from, unsigned to)
{
    struct look look = p->looks[mark % LOOKS];
    unsigned dots = p->dots;

    for (unsigned line = from; line < to; line++) {
        uint8_t *at = out + line * p->width;
        uint64_t lit = all_if(mark & p->lights[line]);

        if (dots > 8) {
            pair shape = p->shapes.wide[glyph * p->lines + line];
            uint64_t low = look.surround ^ ((shape[0] | lit) & look.change);
            uint64_t high = look.surround ^ ((shape[1] | lit) & look.change);
            uint64_t end = low >> 8 * (dots - 8) | high << 8 * (16 - dots); /* its last eight dots */

            memcpy(at, &low, 8);
            memcpy(at + dots - 8, &end, 8);
        } else {
            uint64_t value = look.surround ^ ((p->shapes.narrow[glyph * p->lines + line] | lit) & look.change);
            uint32_t begin = value, end = value >> 8 * (dots - 4);

            memcpy(at, &begin, 4);
            memcpy(at + dots - 4, &end, 4);
        }
    }
}

/* Two cells of up to eight dots, the left one first. */
static inline void put_pair(uint8_t *at, unsigned dots, pair value)
{
    if (dots == 8) {
        memcpy(at, &value, 16);
    } else {
        memcpy(at, &value, 8);
        memcpy(at + dots, (const uint8_t *)&value + 8, 8);
    }
}

/* The row's cells but the last one or two, two by two. Gives how many. */
static inline __attribute__((always_inline)) unsigned narrow_cells(
    const struct plan *p, const struct row *row, uint8_t *out, unsigned dots)
{
    const struct scans *plain = &p->scans[PLAIN_ROW];
    unsigned lines = p->lines, width = p->width, graphics = p->graphics, column = 0;

    for (; column + 2 < p->hact; column += 2) {
        unsigned mark_a = mark_of(row->attrs[column]), mark_b = mark_of(row->attrs[column + 1]);
        struct look a = p->looks[mark_a % LOOKS], b = p->looks[mark_b % LOOKS];
        const uint64_t *shape_a = p->shapes.narrow + glyph_of(row->codes[column], mark_a, graphics) * lines;
        const uint64_t *shape_b = p->shapes.narrow + glyph_of(row->codes[column + 1], mark_b, graphics) * lines;
        pair surround = { a.surround, b.surround }, change = { a.change, b.change };
        uint8_t *at = out + column * dots;

        for (unsigned line = 0; line < lines; line++) {
            pair shape = { shape_a[line], shape_b[line] };

            put_pair(at, dots, surround ^ (shape & change));
            at += width;
        }
        for (unsigned i = 0; i < plain->lit_count; i++) {
            unsigned line = plain->lit[i], lights = p->lights[line];
            pair lit = { shape_a[line] | all_if(mark_a & lights), shape_b[line] | all_if(mark_b & lights) };

            put_pair(out + column * dots + line * width, dots, surround ^ (lit & change));
        }
    }
    return column;
}

/* The row's cells but the last. Gives how many. */
static unsigned wide_cells(const struct plan *p, const struct row *row, uint8_t *out)
{
    const struct scans *plain = &p->scans[PLAIN_ROW];
    unsigned lines = p->lines, width = p->width, dots = p->dots, graphics = p->graphics, column = 0;

    for (; column + 1 < p->hact; column++) {
        unsigned mark = mark_of(row->attrs[column]);
        struct look look = p->looks[mark % LOOKS];
        const pair *shape = p->shapes.wide + glyph_of(row->codes[column], mark, graphics) * lines;
        pair surround = { look.surround, look.surround }, change = { look.change, look.change };
        uint8_t *at = out + column * dots;

        for (unsigned line = 0; line < lines; line++) {
            pair value = surround ^ (shape[line] & change);

            memcpy(at, &value, 16);
            at += width;
        }
        for (unsigned i = 0; i < plain->lit_count; i++) {
            unsigned line = plain->lit[i];
            uint64_t lit = all_if(mark & p->lights[line]);
            pair value = surround ^ ((shape[line] | (pair){ lit, lit }) & change);

            memcpy(out + column * dots + line * width, &value, 16);
        }
    }
    return column;
}

/* The first and the last eight of sixteen dots, each twice. */
static inline pair low_twice(pair shape)
{
    return (pair)__builtin_shuffle((bytes)shape, (bytes){ 0, 0, 1, 1, 2, 2, 3, 3, 4, 4, 5, 5, 6, 6, 7, 7 });
}

static inline pair high_twice(pair shape)
{
    return (pair)__builtin_shuffle((bytes)shape, (bytes){ 8, 8, 9, 9, 10, 10, 11, 11, 12, 12, 13, 13, 14, 14, 15, 15 });
}

/* A cell of a row of double width in so many dots, on the scan lines from .. to - 1, and not a byte beside it. */
static void draw_doubled(
    const struct plan *p, const struct scans *s, uint8_t *out, unsigned dots, unsigned glyph, unsigned mark,
    unsigned from, unsigned to)
{
    struct look look = p->looks[mark % LOOKS];
    pair surround = { look.surround, look.surround }, change = { look.change, look.change };

    for (unsigned line = 0; line < p->lines; line++) {
        unsigned scan = s->scan[line], at = glyph * p->lines + scan;
        uint64_t lit = all_if(mark & p->lights[scan]);
        pair shape = p->dots > 8 ? p->shapes.wide[at] : (pair){ p->shapes.narrow[at], 0 };
        pair both[2];

        if (scan < from || scan >= to)
            continue;
        shape |= (pair){ lit, lit };
        both[0] = surround ^ (low_twice(shape) & change);
        both[1] = surround ^ (high_twice(shape) & change);
        memcpy(out + line * p->width, both, dots);
    }
}

/* A row of double width but its last two cells, of which one may have no more than a column. Gives how many it drew. */
static unsigned doubled_narrow(const struct plan *p, const struct scans *s, const struct row *row, uint8_t *out)
{
    unsigned lines = p->lines, width = p->width, graphics = p->graphics, cell = 0;

    for (; cell + 2 < row->cells; cell++) {
        unsigned mark = mark_of(row->attrs[cell]);
        struct look look = p->looks[mark % LOOKS];
        const uint64_t *shape = p->shapes.narrow + glyph_of(row->codes[cell], mark, graphics) * lines;
        pair surround = { look.surround, look.surround }, change = { look.change, look.change };
        uint8_t *left = out + 2 * cell * p->dots, *at = left;

        for (unsigned line = 0; line < lines; line++) {
            pair value = surround ^ (low_twice((pair){ shape[s->scan[line]], 0 }) & change);

            memcpy(at, &value, 16);
            at += width;
        }
        for (unsigned i = 0; i < s->lit_count; i++) {
            unsigned line = s->lit[i], scan = s->scan[line];
            uint64_t lit = shape[scan] | all_if(mark & p->lights[scan]);
            pair value = surround ^ (low_twice((pair){ lit, 0 }) & change);

            memcpy(left + line * width, &value, 16);
        }
    }
    return cell;
}

static unsigned doubled_wide(const struct plan *p, const struct scans *s, const struct row *row, uint8_t *out)
{
    unsigned lines = p->lines, width = p->width, graphics = p->graphics, cell = 0;

    for (; cell + 2 < row->cells; cell++) {
        unsigned mark = mark_of(row->attrs[cell]);
        struct look look = p->looks[mark % LOOKS];
        const pair *shape = p->shapes.wide + glyph_of(row->codes[cell], mark, graphics) * lines;
        pair surround = { look.surround, look.surround }, change = { look.change, look.change };
        uint8_t *left = out + 2 * cell * p->dots, *at = left;

        for (unsigned line = 0; line < lines; line++) {
            pair value = shape[s->scan[line]];
            pair both[2] = { surround ^ (low_twice(value) & change), surround ^ (high_twice(value) & change) };

            memcpy(at, both, 32);
            at += width;
        }
        for (unsigned i = 0; i < s->lit_count; i++) {
            unsigned line = s->lit[i], scan = s->scan[line];
            uint64_t lit = all_if(mark & p->lights[scan]);
            pair value = shape[scan] | (pair){ lit, lit };
            pair both[2] = { surround ^ (low_twice(value) & change), surround ^ (high_twice(value) & change) };

            memcpy(left + line * width, both, 32);
        }
    }
    return cell;
}

/* The glyph of one of a row's cells. */
static inline unsigned cell_glyph(const struct plan *p, const struct row *row, unsigned cell)
{
    return glyph_of(row->codes[cell], mark_of(row->attrs[cell]), p->graphics);
}

static void draw_doubled_row(const struct plan *p, const struct row *row, uint8_t *out)
{
    const struct scans *s = &p->scans[row->code];
    unsigned last = p->hact / 2; /* the cell that has one column, if there is one */
    unsigned cell = p->dots > 8 ? doubled_wide(p, s, row, out) : doubled_narrow(p, s, row, out);

    for (; cell < row->cells; cell++)
        draw_doubled(p, s, out + 2 * cell * p->dots, cell < last ? 2 * p->dots : p->dots, cell_glyph(p, row, cell),
            mark_of(row->attrs[cell]), 0, p->lines);
    for (unsigned i = 0; i < row->cursors; i++) {
        unsigned c = row->at[i];

        draw_doubled(p, s, out + 2 * c * p->dots, c < last ? 2 * p->dots : p->dots, cell_glyph(p, row, c),
            mark_of(row->attrs[c]) ^ REVERSE, p->cursor_from, p->cursor_to);
    }
}

static void draw_row(const struct plan *p, const struct row *row, uint8_t *out)
{
    unsigned column = p->dots == 6 ? narrow_cells(p, row, out, 6)
        : p->dots == 7 ? narrow_cells(p, row, out, 7)
        : p->dots == 8 ? narrow_cells(p, row, out, 8)
        : wide_cells(p, row, out);

    for (; column < p->hact; column++)
        draw_cell(p, out + column * p->dots, cell_glyph(p, row, column), mark_of(row->attrs[column]), 0, p->lines);
    for (unsigned i = 0; i < row->cursors; i++) {
        unsigned c = row->at[i];

        draw_cell(p, out + c * p->dots, cell_glyph(p, row, c), mark_of(row->attrs[c]) ^ REVERSE,
            p->cursor_from, p->cursor_to);
    }
}

static void draw_rows(const struct plan *p, uint8_t *out)
{
    unsigned at = p->start1, latch = 0;

    for (unsigned r = 0; r < p->rows; r++) {
        uint8_t *lines = out + (size_t)r * p->lines * p->width;
        struct row row;

        row.code = PLAIN_ROW;
        if (p->table) {
            struct row_entry entry = row_entry(p->ir, p->chars, p->start2, r);

            at = entry.start;
            row.code = entry.code;
        }
        at = fetch_row(p, at, &row);
        if (p->field_mode)
            latch = run_on(p, &row, latch);
        if (row.code == PLAIN_ROW)
            draw_row(p, &row, lines);
        else
            draw_doubled_row(p, &row, lines);
    }
}

/* ---- the call ---- */

static void plan_page(struct plan *p, const uint8_t *numbers, uint8_t field)
{
    const uint8_t *ir = numbers + 1;
    unsigned cursor_period = ir[7] & 16 ? 64 : 32;
    unsigned last_line = ir[6] & 15;
    int gate = numbers[22] & CURSOR && (!(ir[7] & 32) || field % cursor_period < cursor_period / 2);

    p->ir = ir;
    p->hact = ir[5] + 1u;
    p->lines = (ir[0] >> 3 & 15) + 1u;
    p->rows = (ir[4] & 127) + 1u;
    p->dots = numbers[23];
    p->width = p->hact * p->dots;
    p->first = first_address(ir);
    p->last = last_address(ir);
    p->start1 = big_endian(numbers + 16);
    p->cursor = big_endian(numbers + 18);
    p->start2 = big_endian(numbers + 20);
    p->table = ir[2] & 128;
    p->field_mode = numbers[22] & FIELD_MODE;
    p->bare = setting_is_bare(numbers[22]);
    p->graphics = graphics_of(numbers[0], numbers[25]);
    p->cursor_from = ir[6] >> 4;
    p->cursor_to = !gate ? 0 : last_line < p->lines ? last_line + 1 : p->lines;
}

static int sizes_refused(const uint8_t *numbers, const size_t counts[7])
{
    static const size_t right[] = { 32, MEMORY, MEMORY, CHARACTERS * LIST, CHARACTERS, LIST, LIST };

    return memcmp(counts, right, sizeof right) != 0 || version_refused(numbers[0]);
}

feldrime_answer expert_picture_draw(
    const uint8_t *numbers, size_t numbers_count,
    const uint8_t *chars, size_t chars_count,
    const uint8_t *attrs, size_t attrs_count,
    const uint16_t *words, size_t words_count,
    const uint8_t *flags, size_t flags_count,
    const uint8_t *unshifted, size_t unshifted_count,
    const uint8_t *shifted, size_t shifted_count,
    const uint8_t *groups, size_t groups_count,
    uint8_t field,
    uint8_t *out, size_t out_count)
{
    struct plan p; /* not cleared: its tables are large */

    if (sizes_refused(numbers, (const size_t[]){
            numbers_count, chars_count, attrs_count, words_count, flags_count, unshifted_count, shifted_count })
        || group_count_refused(groups_count))
        return (feldrime_answer){ 3, 0 };
    feldrime_answer refused = page_refused(numbers);
    if (groups_refused(groups, groups_count))
        return (feldrime_answer){ 12, 0 };
    if (refused.refusal != 0)
        return refused;
    p.chars = chars;
    p.attrs = attrs;
    plan_page(&p, numbers, field);
    size_t size = (size_t)p.rows * p.lines * p.width;
    unsigned switches = numbers[22], period = numbers[5] & 128 ? 128 : 64;
    if (out_count < size)
        return (feldrime_answer){ 8, 0 };
    if (switches & DISPLAY) {
        make_looks(&p, (switches & BKGND) != 0, field % period >= period / 4 * 3);
        make_lights(&p, numbers[8] & 15, numbers[24]);
        make_shapes(&p, words, flags, unshifted, shifted);
        if (p.graphics)
            make_graphics(&p, groups, groups_count);
        draw_rows(&p, out);
    } else {
        memset(out, switches & BKGND && !(switches & RBLANK) ? GRAY : BLACK, size);
    }
    return (feldrime_answer){ 0, 0 };
}
