/* What blinks, and when, is found by drawing. */
#include "fields.h"

#include <stdlib.h>
#include <string.h>

/* The place of a picture among those kept, to which it is added if it is new. */
static int keep(struct fields *fields, uint8_t *picture, size_t size, int field)
{
    for (int i = 0; i < fields->count; i++) {
        if (memcmp(fields->pictures[i], picture, size) == 0) {
            free(picture);
            return i;
        }
    }
    fields->pictures[fields->count] = picture;
    fields->first[fields->count] = field;
    return fields->count++;
}

static bool repeats(const struct fields *fields, int looks)
{
    for (int look = looks; look < LOOKS; look++)
        if (fields->shown[look] != fields->shown[look - looks])
            return false;
    return true;
}

bool fields_of(const struct page *page, const feldrime_font *font, struct fields *fields)
{
    size_t size = (size_t)page->lines * page->dots;
    int looks = 1;

    fields->count = 0;
    for (int look = 0; look < LOOKS; look++) {
        uint8_t *picture = picture_of(page, font, (uint8_t)(STEP * look));
        if (picture == NULL) {
            drop_fields(fields);
            return false;
        }
        fields->shown[look] = keep(fields, picture, size, STEP * look);
    }
    while (!repeats(fields, looks))
        looks *= 2;
    fields->period = STEP * looks;
    return true;
}

void drop_fields(struct fields *fields)
{
    for (int i = 0; i < fields->count; i++)
        free(fields->pictures[i]);
    fields->count = 0;
}
