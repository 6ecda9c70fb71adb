#include "say.h"

#include <stdarg.h>
#include <stdio.h>

void say(const char *name, const char *format, ...)
{
    va_list rest;

    fprintf(stderr, "feldrime: %s: ", name);
    va_start(rest, format);
    vfprintf(stderr, format, rest);
    va_end(rest);
    fputc('\n', stderr);
}

int hint_at_help(const char *word)
{
    fprintf(stderr, "Try 'feldrime %s%s--help'.\n", word == NULL ? "" : word, word == NULL ? "" : " ");
    return WRONG_USE;
}

int wrong_use(const char *word, const char *format, ...)
{
    va_list rest;

    fputs("feldrime: ", stderr);
    va_start(rest, format);
    vfprintf(stderr, format, rest);
    va_end(rest);
    fputc('\n', stderr);
    return hint_at_help(word);
}
