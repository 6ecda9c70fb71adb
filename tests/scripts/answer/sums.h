/* The sums by which answers tell what is too long to print. */
#ifndef SUMS_H
#define SUMS_H

#include <stdint.h>

static const uint64_t sum_start = 14695981039346656037u;

/* In the header, since it is called for every dot. */
static inline uint64_t add(uint64_t sum, uint32_t number)
{
    return (sum ^ number) * 1099511628211u;
}

#endif
