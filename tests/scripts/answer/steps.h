/* Runs of steps. */
#ifndef STEPS_H
#define STEPS_H

#include <stdbool.h>

#include "feldrime.h"

enum { CODES = 4 }; /* of rows */

/* Each step of a run whose number this divides has a line of its own; 0 for none. */
extern uint32_t every;

extern struct steps {
    const char *from; /* where the run began, */
    uint8_t code;     /* and with which byte as the row's code */
    uint32_t done;
    uint64_t sum;
    feldrime_step_answer last;
} steps;

/* Scan lines in a row, and cells in a row, by the IRs. */
uint32_t lines_in_row(void);
uint32_t columns_of_page(void);

void begin_steps(void);

/* One step more; false where it was refused. */
bool step_once(void);

void report_steps(void);

/* A sum with all that a step showed. */
uint64_t add_shown(uint64_t sum, const feldrime_step_answer *a);

#endif
