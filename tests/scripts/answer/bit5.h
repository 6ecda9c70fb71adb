/* Of a frame, the cells for which bit 5 holds: strike on chip A, graphics on chip B. */
#ifndef BIT5_H
#define BIT5_H

#include <stdint.h>

void clear_bit5(void);

/* The step that was taken last: it began on an active clock of this line. */
void count_bit5(uint32_t line);

void print_bit5(void);

#endif
