/* The C step, which has the prototype of the library's. */
#ifndef STEPPER_H
#define STEPPER_H

#include "feldrime.h"

typedef typeof(feldrime_step) stepper;

stepper plain_step; /* step.c */

#endif
