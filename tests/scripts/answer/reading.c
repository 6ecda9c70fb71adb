#include "reading.h"

#include <stdlib.h>
#include <string.h>

#include "fail.h"
#include "lent.h"
#include "orders.h"

uint32_t number(const char *word)
{
    char *end;
    unsigned long long value = strtoull(word, &end, 10);

    if (*word == '\0' || *end != '\0' || value > UINT32_MAX)
        fail("no number");
    return (uint32_t)value;
}

uint8_t small(const char *word)
{
    uint32_t value = number(word);

    if (value > UINT8_MAX)
        fail("no number below 256");
    return (uint8_t)value;
}

static int buffer(const char *word)
{
    for (int which = 0; which < BUFFERS; which++)
        if (strcmp(word, names[which]) == 0)
            return which;
    fail("no such buffer");
}

uint32_t hex_digits(const char *text, size_t digits)
{
    uint32_t value = 0;

    for (size_t i = 0; i < digits; i++) {
        const char *all = "0123456789abcdef", *digit = text[i] == '\0' ? NULL : strchr(all, text[i]);
        if (digit == NULL)
            fail("no hex digit");
        value = 16 * value + (uint32_t)(digit - all);
    }
    return value;
}

void do_set(char **word)
{
    int which = buffer(word[1]);
    size_t digits = 2 * number_size(which), place = number(word[2]) * numbers_in_element(which);
    size_t count = strlen(word[3]) / digits;

    if (strlen(word[3]) % (2 * element_size(which)) != 0 || place + count > all_numbers(which))
        fail("set reaches past the buffer");
    forget(which);
    for (size_t i = 0; i < count; i++)
        set_number(which, place + i, hex_digits(word[3] + digits * i, digits));
}

void do_mask(char **word)
{
    int which = buffer(word[1]);
    size_t digits = 2 * number_size(which), each = numbers_in_element(which);

    if (strlen(word[2]) != 2 * element_size(which))
        fail("a mask is one element");
    forget(which);
    for (size_t i = 0; i < all_numbers(which); i++)
        set_number(which, i, number_at(which, i) & hex_digits(word[2] + digits * (i % each), digits));
}

void do_take(char **word)
{
    int which = buffer(word[1]), from = buffer(word[2]);
    size_t count = number(word[3]);

    if (which == from || element_size(which) != 1 || element_size(from) != 1 || count > lent[from].bytes)
        fail("nothing to take");
    allocate(which, count);
    memcpy(lent[which].start, lent[from].start, count);
}

void do_fill(char **word)
{
    fill(buffer(word[1]), number(word[2]), number(word[3]));
}

void do_none(char **word)
{
    release(buffer(word[1]));
}
