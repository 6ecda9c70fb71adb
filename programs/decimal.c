#include "decimal.h"

#include <stdlib.h>
#include <string.h>

bool decimal_of(const char *text, uint32_t highest, uint32_t *number)
{
    size_t digits = strspn(text, "0123456789");

    if (digits == 0 || text[digits] != '\0')
        return false;
    /* A number that is too high for it becomes its highest. */
    unsigned long long found = strtoull(text, NULL, 10);
    *number = (uint32_t)found;
    return found <= highest;
}
