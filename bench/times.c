/* Times the library alone: times ROUNDS FONT PAGE.. prints the shortest times of all pictures, of all lines and of a frame's steps of all pages, in
 * nanoseconds. It is built with the header of one of two trees (bench/before), so it knows the calls of the version before, too. */
#include <stdio.h>
#include <stdlib.h>
#include <time.h>

#include "feldrime.h"

#if FELDRIME_VERSION < 8
#define NO_GROUPS
#else
#define NO_GROUPS , NULL, 0
#endif

#define MOST 16 /* pages */
#define TIMES 20 /* a picture and its lines in one measurement; a frame's steps are many already */
#define NUMBERS(page) (page)->numbers, FELDRIME_NUMBERS
#define MEMORIES(page) (page)->chars, FELDRIME_MEMORY, (page)->attrs, FELDRIME_MEMORY
#define FONT \
    words, FELDRIME_WORDS, flags, FELDRIME_FLAGS, unshifted, FELDRIME_LIST, shifted, FELDRIME_LIST NO_GROUPS

static uint16_t words[FELDRIME_WORDS];
static uint8_t flags[FELDRIME_FLAGS], unshifted[FELDRIME_LIST], shifted[FELDRIME_LIST];
static feldrime_page pages[MOST];
static int count;
static uint8_t out[FELDRIME_PICTURE];

static size_t read_file(const char *name)
{
    FILE *file = fopen(name, "rb");
    size_t size = file == NULL ? 0 : fread(out, 1, sizeof out, file);

    if (file != NULL)
        fclose(file);
    return size;
}

static int read_all(char *const names[], int files)
{
    if (files < 2 || files > MOST + 1 || feldrime_font_read(out, read_file(names[0]), FONT).refusal != 0)
        return 0;
    for (count = 0; count < files - 1; count++)
        if (feldrime_load_page(&pages[count], out, read_file(names[count + 1])).refusal != 0)
            return 0;
    return 1;
}

static void pictures(const feldrime_page *page)
{
    for (int i = 0; i < TIMES; i++)
        feldrime_picture_draw(NUMBERS(page), MEMORIES(page), FONT, (uint8_t)i, out, sizeof out);
}

static void lines(const feldrime_page *page)
{
    uint32_t all = feldrime_size_of(page).lines;

    for (uint32_t i = 0; i < TIMES * all; i++)
        feldrime_line_draw(NUMBERS(page), MEMORIES(page), FONT, i % all, (uint8_t)(i / all), out, sizeof out);
}

static void steps(const feldrime_page *page)
{
    feldrime_board board = feldrime_board_of(NUMBERS(page)).board;

    while (board.place.field == 0)
        feldrime_step(&board, MEMORIES(page), FONT);
}

static double now(void)
{
    struct timespec t;

    clock_gettime(CLOCK_MONOTONIC, &t);
    return t.tv_sec * 1e9 + t.tv_nsec;
}

static double shortest(int rounds, void (*run)(const feldrime_page *page))
{
    double best = 0;

    for (int i = 0; i < rounds; i++) {
        double begun = now();
        for (int p = 0; p < count; p++)
            run(&pages[p]);
        double taken = now() - begun;
        best = i == 0 || taken < best ? taken : best;
    }
    return best;
}

int main(int given, char *arguments[])
{
    int rounds = given > 1 ? atoi(arguments[1]) : 0;

    if (rounds < 1 || !read_all(arguments + 2, given - 2)) {
        fputs("usage: times ROUNDS FONT PAGE..\n", stderr);
        return 2;
    }
    printf("%.0f %.0f %.0f\n", shortest(rounds, pictures), shortest(rounds, lines), shortest(rounds, steps));
    return 0;
}
