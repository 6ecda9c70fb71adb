/* Times the library beside C in one run and prints how their times compare: bench FONT PAGE..
 * First all draw and step through the same pages; if one byte or number differs, it says so and exits 1. */
#include <stdio.h>
#include <time.h>

#include "index.h"
#include "rules.h"

#define ROWS 24
#define COLUMNS 80
#define LEAST 6 /* dots in a cell */
#define MOST 12
#define WIDTHS (MOST - LEAST + 1)
#define ON (DISPLAY | CURSOR)
#define OFF CURSOR
#define STATES 20000 /* calls for a state in one measurement */
#define COMPARED 2000 /* records compared each with each in one measurement */
#define ROUNDS 31

static uint8_t picture[2048 * FELDRIME_LINE];

static struct set sheets[WIDTHS], rows[WIDTHS], cell, off, samples;
static struct set latched[4]; /* of version 2: field mode with ACD off and on and with display off, character mode with ACD on */
static struct set running[3], standing[3]; /* the same pages in field mode and in character mode */
static struct set wide[WIDTHS], headline;  /* the sheets with rows of double width, and with headlines of double height */
static struct set mixed[2];                /* rows of every code and an odd number of columns, in both modes */
static struct set letters[WIDTHS], graphics[WIDTHS]; /* the sheets on chip B, with letters and with graphics in every cell */
static struct set mingles[4];                /* letters and graphics in one page: in character mode, in field mode with ACD off and on, in rows of every code */

/* ---- what is timed ---- */

typedef void runner(const struct set *set);

static void paint_all(painter *paint, const struct set *set)
{
    for (unsigned t = 0; t < set->times; t++)
        for (size_t p = 0; p < set->count; p++)
            for (size_t f = 0; f < COUNT(fields); f++)
                paint(&set->pages[p], fields[f], picture);
}

static void run_plain_lines(const struct set *set)
{
    paint_all(plain_lines, set);
}

static void run_library_lines(const struct set *set)
{
    paint_all(library_lines, set);
}

static void run_library_picture(const struct set *set)
{
    paint_all(library_picture, set);
}

static void run_expert_picture(const struct set *set)
{
    paint_all(expert_picture, set);
}

static void step_all(stepper *step, const struct set *set)
{
    for (size_t p = 0; p < set->count; p++)
        for (size_t f = 0; f < COUNT(fields); f++) {
            feldrime_board board = board_at(&set->pages[p], fields[f]);
            uint32_t clocks = clocks_of(&set->pages[p]);

            for (uint32_t n = 0; n < clocks; n++)
                step_once(step, &set->pages[p], &board);
        }
}

static void run_library_step(const struct set *set)
{
    step_all(feldrime_step, set);
}

static void run_plain_step(const struct set *set)
{
    step_all(plain_step, set);
}

static void states(const struct set *set, uint32_t n)
{
    for (size_t p = 0; p < set->count; p++) {
        feldrime_board board = board_at(&set->pages[p], 0);

        for (unsigned i = 0; i < STATES; i++)
            state_at(&set->pages[p], board, n);
    }
}

static void run_far_state(const struct set *set)
{
    states(set, FAR);
}

static void run_zero_state(const struct set *set)
{
    states(set, 0);
}

static void find_all(phrase_finder *find, const struct set *set)
{
    for (size_t p = 0; p < set->count; p++)
        for (uint32_t row = 0; row < ROWS; row++)
            find_phrase(find, &set->pages[p], PHRASES, row);
}

static void run_library_phrases(const struct set *set)
{
    find_all(feldrime_phrase_of_row, set);
}

static void run_plain_phrases(const struct set *set)
{
    find_all(plain_phrase_of_row, set);
}

static void run_library_differ(const struct set *set)
{
    (void)set;
    feldrime_phrases_differ(phrases, COMPARED);
}

static void run_plain_differ(const struct set *set)
{
    (void)set;
    plain_phrases_differ(phrases, COMPARED);
}

/* ---- timing ---- */

struct contestant {
    runner *run;
    const struct set *set;
    double best; /* seconds */
};

static double now(void)
{
    struct timespec t;

    clock_gettime(CLOCK_MONOTONIC, &t);
    return t.tv_sec + t.tv_nsec * 1e-9;
}

/* Runs the contestants in turn, each round in another order, and keeps the shortest time of each. */
static void race(struct contestant *all, size_t count)
{
    for (size_t round = 0; round < ROUNDS; round++)
        for (size_t i = 0; i < count; i++) {
            struct contestant *one = &all[(round + (round % 2 ? count - i : i)) % count];
            double begun = now();
            one->run(one->set);
            double taken = now() - begun;

            if (round == 0 || taken < one->best)
                one->best = taken;
        }
}

/* How long the first takes, the second's time being 1. */
static double ratio(runner *first, const struct set *of_first, runner *second, const struct set *of_second)
{
    struct contestant both[] = { { first, of_first, 0 }, { second, of_second, 0 } };

    race(both, COUNT(both));
    return both[0].best / both[1].best;
}

/* ---- what is printed ---- */

static void print_drawing(const struct set *set)
{
    struct contestant all[] = {
        { run_library_picture, set, 0 }, { run_expert_picture, set, 0 },
        { run_library_lines, set, 0 }, { run_plain_lines, set, 0 },
    };

    race(all, COUNT(all));
    printf("picture %s: library/plain %.2f library/expert %.2f\n", set->name, all[0].best / all[3].best, all[0].best / all[1].best);
    printf("line %s: library/plain %.2f\n", set->name, all[2].best / all[3].best);
}

static void print_few(const char *what, const struct set *set)
{
    printf("picture %s %s: library/lines %.2f\n", what, set->name, ratio(run_library_picture, set, run_library_lines, set));
}

static void print_off(const struct set *on)
{
    printf("picture %s, display off: off/on %.2f\n", on->name, ratio(run_library_picture, &off, run_library_picture, on));
    printf("line %s, display off: off/on %.2f\n", on->name, ratio(run_library_lines, &off, run_library_lines, on));
}

/* Field mode beside character mode. */
static void print_modes(const struct set *field, const struct set *character)
{
    printf("picture %s: field/character %.2f\n", field->name, ratio(run_library_picture, field, run_library_picture, character));
    printf("line %s: field/character %.2f\n", field->name, ratio(run_library_lines, field, run_library_lines, character));
    printf("state %s: field/character n = 0 %.2f n = 2^32 - 1 %.2f\n", field->name,
           ratio(run_zero_state, field, run_zero_state, character), ratio(run_far_state, field, run_far_state, character));
}

/* Rows of double width beside plain ones: half as many cells, and as many dots. */
static void print_wide(const struct set *doubled, const struct set *plain)
{
    printf("picture %s: wide/plain %.2f\n", doubled->name, ratio(run_library_picture, doubled, run_library_picture, plain));
    printf("line %s: wide/plain %.2f\n", doubled->name, ratio(run_library_lines, doubled, run_library_lines, plain));
}

/* Graphics beside letters, on the same pages. */
static void print_graphics(const struct set *drawn, const struct set *written)
{
    printf("picture %s: graphics/letters %.2f\n", drawn->name, ratio(run_library_picture, drawn, run_library_picture, written));
    printf("line %s: graphics/letters %.2f\n", drawn->name, ratio(run_library_lines, drawn, run_library_lines, written));
    printf("step %s: graphics/letters %.2f\n", drawn->name, ratio(run_library_step, drawn, run_library_step, written));
}

/* The whole list compared each with each takes long, so it is timed once, and a part of it beside C. */
static void print_phrases(const struct set *set)
{
    double begun = now();
    feldrime_phrases_differ(phrases, PHRASES);
    double taken = now() - begun;

    printf("phrase of row: library/plain %.2f\n", ratio(run_library_phrases, set, run_plain_phrases, set));
    printf("phrases differ: library/plain %.2f, and %u records take %.2f s\n", ratio(run_library_differ, set, run_plain_differ, set), PHRASES, taken);
}

static void print_all(const struct set *eight)
{
    for (size_t w = 0; w < WIDTHS; w++)
        print_drawing(&sheets[w]);
    print_drawing(&latched[0]);
    print_drawing(&wide[8 - LEAST]);
    print_drawing(&headline);
    print_drawing(&graphics[8 - LEAST]);
    print_drawing(&samples);
    for (size_t w = 0; w < WIDTHS; w++)
        print_wide(&wide[w], &sheets[w]);
    for (size_t w = 0; w < WIDTHS; w++)
        print_graphics(&graphics[w], &letters[w]);
    for (size_t w = 0; w < WIDTHS; w++)
        print_few("one row", &rows[w]);
    print_few("one cell", &cell);
    print_off(eight);
    printf("step: library/plain %.2f\n", ratio(run_library_step, eight, run_plain_step, eight));
    printf("step, field mode: library/plain %.2f\n", ratio(run_library_step, &latched[0], run_plain_step, &latched[0]));
    printf("step, wide rows: library/plain %.2f\n", ratio(run_library_step, &wide[8 - LEAST], run_plain_step, &wide[8 - LEAST]));
    printf("step, graphics: library/plain %.2f\n", ratio(run_library_step, &graphics[8 - LEAST], run_plain_step, &graphics[8 - LEAST]));
    printf("state: n = 2^32 - 1 / n = 0 %.2f\n", ratio(run_far_state, eight, run_zero_state, eight));
    for (size_t i = 0; i < COUNT(running); i++)
        print_modes(&running[i], &standing[i]);
    print_phrases(eight);
}

/* ---- the pages ---- */

static void make_running(void)
{
    static const char *const names[] = { "text", "AFLG in each row", "no AFLG" };

    for (size_t i = 0; i < COUNT(running); i++) {
        make_sheets(&running[i], names[i], ROWS, COLUMNS, 8, ON | FIELD_MODE);
        if (i == 1)
            aflg_in_each_row(&running[i]);
        if (i == 2)
            without_aflg(&running[i]);
        switched(&standing[i], &running[i], ON);
    }
}

static void make_coded(void)
{
    static const char *const names[] = {
        "6 dots, wide rows", "7 dots, wide rows", "8 dots, wide rows", "9 dots, wide rows", "10 dots, wide rows", "11 dots, wide rows",
        "12 dots, wide rows",
    };
    static const uint8_t all_wide[] = { WIDE_ROW };
    static const uint8_t top_and_bottom[] = { TOP_ROW, BOTTOM_ROW, PLAIN_ROW, PLAIN_ROW, PLAIN_ROW, PLAIN_ROW };
    static const uint8_t every[] = { WIDE_ROW, TOP_ROW, BOTTOM_ROW, PLAIN_ROW, BOTTOM_ROW };

    for (unsigned w = 0; w < WIDTHS; w++)
        coded(&wide[w], &sheets[w], names[w], all_wide, COUNT(all_wide));
    coded(&headline, &sheets[8 - LEAST], "8 dots, headlines", top_and_bottom, COUNT(top_and_bottom));
    make_sheets(&mixed[0], "every row code", ROWS, COLUMNS - 1, 11, ON);
    make_sheets(&mixed[1], "every row code in field mode", ROWS, COLUMNS - 1, 7, ON | FIELD_MODE);
    for (size_t i = 0; i < COUNT(mixed); i++)
        coded(&mixed[i], &mixed[i], mixed[i].name, every, COUNT(every));
}

static void make_graphics(void)
{
    static const char *const names[] = {
        "6 dots, graphics", "7 dots, graphics", "8 dots, graphics", "9 dots, graphics", "10 dots, graphics", "11 dots, graphics",
        "12 dots, graphics",
    };

    for (unsigned w = 0; w < WIDTHS; w++) {
        lettered(&letters[w], &sheets[w], "letters on chip B");
        drawn(&graphics[w], &sheets[w], names[w]);
    }
    mingled(&mingles[0], &sheets[12 - LEAST], "letters and graphics");
    mingled(&mingles[1], &latched[0], "letters and graphics in field mode");
    mingled(&mingles[2], &latched[1], "letters and graphics in field mode with ACD on");
    mingled(&mingles[3], &mixed[1], "letters and graphics in rows of every code");
}

static void make_all(void)
{
    static const char *const names[] = { "6 dots", "7 dots", "8 dots", "9 dots", "10 dots", "11 dots", "12 dots" };

    for (unsigned w = 0; w < WIDTHS; w++) {
        make_sheets(&sheets[w], names[w], ROWS, COLUMNS, LEAST + w, ON);
        make_sheets(&rows[w], names[w], 1, COLUMNS, LEAST + w, ON);
        rows[w].times = ROWS;
    }
    make_sheets(&cell, names[8 - LEAST], 1, 1, 8, ON);
    cell.times = 10 * ROWS;
    make_sheets(&off, names[8 - LEAST], ROWS, COLUMNS, 8, OFF);
    make_sheets(&latched[0], "8 dots, field mode", ROWS, COLUMNS, 8, ON | FIELD_MODE);
    make_sheets(&latched[1], "field mode with ACD on", ROWS, COLUMNS, 8, ON | FIELD_MODE | ACD);
    make_sheets(&latched[2], "field mode with display off", ROWS, COLUMNS, 8, OFF | FIELD_MODE);
    make_sheets(&latched[3], "version 2 in character mode", ROWS, COLUMNS, 8, ON | ACD);
    make_running();
    make_coded();
    make_graphics();
    make_phrases();
}

static int all_same(const struct set *eight)
{
    for (size_t w = 0; w < WIDTHS; w++)
        if (!same_pictures(&sheets[w]) || !same_pictures(&rows[w]) || !same_pictures(&wide[w]))
            return 0;
    for (size_t i = 0; i < COUNT(latched); i++)
        if (!same_pictures(&latched[i]) || !same_steps(&latched[i]))
            return 0;
    for (size_t i = 0; i < COUNT(running); i++)
        if (!same_pictures(&running[i]) || !same_pictures(&standing[i]))
            return 0;
    for (size_t i = 0; i < COUNT(mixed); i++)
        if (!same_pictures(&mixed[i]) || !same_steps(&mixed[i]))
            return 0;
    for (size_t w = 0; w < WIDTHS; w++)
        if (!same_pictures(&letters[w]) || !same_pictures(&graphics[w]) || !same_steps(&graphics[w]))
            return 0;
    for (size_t i = 0; i < COUNT(mingles); i++)
        if (!same_pictures(&mingles[i]) || !same_steps(&mingles[i]))
            return 0;
    return same_pictures(&cell) && same_pictures(&off) && same_pictures(&headline) && same_pictures(&samples)
        && same_steps(eight) && same_steps(&wide[8 - LEAST]) && states_answer(eight) && same_phrases(eight) && same_phrases(&mixed[0]);
}

int main(int count, char *arguments[])
{
    const struct set *eight = &sheets[8 - LEAST];

    make_all();
    if (!read_samples(&samples, arguments + 1, (size_t)count - 1)) {
        fputs("usage: bench FONT PAGE..\n", stderr);
        return 2;
    }
    if (!all_same(eight))
        return 1;
    printf("All drawers give the same bytes, both steps the same answers and boards, both searches for phrases the same records. Times compare as follows (below 1.00: the first is faster).\n");
    print_all(eight);
    return 0;
}
