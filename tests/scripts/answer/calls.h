/* Calls that the orders `frame` and `moves` make too. */
#ifndef CALLS_H
#define CALLS_H

#include <stdbool.h>

#include "feldrime.h"

/* Each is reported. The two moves give their refusal. */
feldrime_size page_size(void);
void picture_draw(uint8_t field);
uint32_t to_table(void);
uint32_t to_sheet(void);

/* Not reported: a frame has one report for all its lines, and one for all its rows. */
feldrime_answer line_draw(uint32_t line, uint8_t field);
feldrime_cells row_cells(uint32_t row);

/* Some of these cells does not follow the one before it. */
bool cells_wrap(const uint16_t *cells, uint32_t count);

#endif
