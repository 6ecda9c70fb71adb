#include "stem.h"

#include <string.h>

static const char plain[] = "abcdefghijklmnopqrstuvwxyzABCDEFGHIJKLMNOPQRSTUVWXYZ0123456789-_";

void stem_of(const char *file, char stem[STEM])
{
    if (strcmp(file, "-") == 0)
        file = "stdin";
    const char *slash = strrchr(file, '/'), *name = slash == NULL ? file : slash + 1;
    size_t length = strlen(name);

    if (length > 5 && strcmp(name + length - 5, ".page") == 0)
        length -= 5;
    if (length > STEM - 1)
        length = STEM - 1;
    for (size_t i = 0; i < length; i++)
        stem[i] = strchr(plain, name[i]) != NULL ? name[i] : '_';
    if (length == 0)
        stem[length++] = '_';
    stem[length] = '\0';
}
