/* The pictures of a page that look different. */
#ifndef FIELDS_H
#define FIELDS_H

#include "page.h"

/* The header's rule: a picture can change only at a field that 16 divides, and after 128 fields it is the same again. */
enum { STEP = 16, PERIOD = 128, LOOKS = PERIOD / STEP };

struct fields {
    int count;                /* of pictures, picture 0 being that of field 0 */
    uint8_t *pictures[LOOKS];
    int first[LOOKS];         /* the first field with that picture */
    int shown[LOOKS];         /* the picture of the fields from STEP x the place on */
    int period;               /* the pictures come again after this many fields */
};

/* Draws the fields that can differ and keeps each picture once. Says why it could not. */
bool fields_of(const struct page *page, const feldrime_font *font, struct fields *fields);

void drop_fields(struct fields *fields);

#endif
