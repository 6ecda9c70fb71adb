/* The C drawers, which have the prototypes of the library's. */
#ifndef DRAWER_H
#define DRAWER_H

#include "feldrime.h"

typedef typeof(feldrime_line_draw) line_drawer;
typedef typeof(feldrime_picture_draw) picture_drawer;

line_drawer plain_line_draw;         /* plain.c */
picture_drawer expert_picture_draw;  /* expert.c */

#endif
