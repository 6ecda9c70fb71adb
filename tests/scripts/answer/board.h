/* The script's board. */
#ifndef BOARD_H
#define BOARD_H

#include "feldrime.h"

extern feldrime_board *board; /* in lent[BOARD] */

/* Once, before the first script. */
void lend_board(void);

/* The board is zeros, and so is the one that was given last. */
void clear_board(void);

/* Its 94 digits, up to the next call. */
const char *board_text(void);

#endif
