/* The pages that are drawn and stepped, and how they are handed to the drawers. */
#ifndef PAGES_H
#define PAGES_H

#include "drawer.h"
#include "stepper.h"

#define COUNT(a) (sizeof(a) / sizeof(a)[0])

struct font {
    uint16_t words[FELDRIME_WORDS];
    uint8_t flags[FELDRIME_FLAGS], unshifted[FELDRIME_LIST], shifted[FELDRIME_LIST], groups[FELDRIME_GROUPS];
    size_t group_count;
};

struct page {
    const struct font *font;
    uint8_t numbers[FELDRIME_NUMBERS], chars[FELDRIME_MEMORY], attrs[FELDRIME_MEMORY];
    uint32_t lines, width; /* of its picture, in lines and dots */
};

/* Pages that are measured together, so many times. */
struct set {
    const char *name;
    struct page pages[16];
    size_t count;
    unsigned times;
};

#define MEMORIES(page) (page)->chars, FELDRIME_MEMORY, (page)->attrs, FELDRIME_MEMORY
#define FONT(page) \
    (page)->font->words, FELDRIME_WORDS, (page)->font->flags, FELDRIME_FLAGS, \
    (page)->font->unshifted, FELDRIME_LIST, (page)->font->shifted, FELDRIME_LIST, \
    (page)->font->groups, (page)->font->group_count

/* Two sheets of random text, row table off and on, of version 2 where a switch asks for it. */
void make_sheets(struct set *set, const char *name, uint8_t rows, uint8_t columns, uint8_t dots, uint8_t switches);

/* The same pages with other switches. */
void switched(struct set *to, const struct set *from, uint8_t switches);

/* The same pages with the row table on and these row codes, over and over. A bottom half has the cells of the row before it. */
void coded(struct set *to, const struct set *from, const char *name, const uint8_t *codes, size_t count);

/* The same pages in version 3, of chip B, with a font that has groups. Every cell keeps its look, and has letters or graphics. */
void lettered(struct set *to, const struct set *from, const char *name);
void drawn(struct set *to, const struct set *from, const char *name);

/* The same, with graphics in those cells that bit 5 makes graphics. */
void mingled(struct set *to, const struct set *from, const char *name);

/* Takes AFLG from all cells, or from all but the first of each row: there a search for it from the row below goes over the whole row. */
void without_aflg(struct set *set);
void aflg_in_each_row(struct set *set);

/* The pages in these files, with the font in the first. 0 where one cannot be read. */
int read_samples(struct set *set, char *const names[], size_t count);

/* Draws all visible lines end to end, and gives the first refusal met. */
typedef uint32_t painter(const struct page *page, uint8_t field, uint8_t *out);

painter plain_lines, library_lines, library_picture, expert_picture;

static const uint8_t fields[] = { 0, 20, 50, 112, 255 };

/* 0, and a word about it, where two drawers or steps differ on a set's pages. */
int same_pictures(const struct set *set);
int same_steps(const struct set *set);
int states_answer(const struct set *set);

#define FAR 4294967295u

/* An active board at the page's clock 0, in a field. */
feldrime_board board_at(const struct page *page, uint8_t field);
uint32_t clocks_of(const struct page *page);

static inline feldrime_step_answer step_once(stepper *step, const struct page *page, feldrime_board *board)
{
    return step(board, MEMORIES(page), FONT(page));
}

static inline feldrime_board_answer state_at(const struct page *page, feldrime_board board, uint32_t n)
{
    return feldrime_state_at(board, MEMORIES(page), n);
}

#endif
