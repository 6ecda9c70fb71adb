/* The line that each call gets, and what of it tells which board or page the call was handed. */
#ifndef REPORT_H
#define REPORT_H

#include <stdint.h>
#include <stdio.h>

/* POWER and MODE of a report. */
struct handed {
    const char *power, *mode;
};

extern const struct handed no_page;

struct handed by_board(void);
struct handed by_numbers(void);
struct handed by_file(void);

/* RESULTS of the call that is being reported, "" or beginning with a space. */
extern char results[512];

/* RESULTS of a call that draws end with it: which of the lent groups is the first that is refused. */
const char *above_text(void);

#define RESULTS(...) snprintf(results, sizeof results, __VA_ARGS__)

/* The buffers that a call was lent, up to ALL. */
extern const int of_nothing[], of_numbers[], of_run[], of_cells[], of_row_phrase[], of_phrases[], of_memories[];
extern const int of_step[], of_drawing[], of_page_read[], of_page_write[], of_font_read[];

void report(const char *call, struct handed handed, uint32_t count, uint32_t refusal, uint32_t beside,
            const int *which);

#endif
