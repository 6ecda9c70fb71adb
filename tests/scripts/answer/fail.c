#include "fail.h"

#include <stdio.h>
#include <stdlib.h>

unsigned long script_line;

void fail(const char *what)
{
    fflush(stdout);
    fprintf(stderr, "answer: line %lu: %s\n", script_line, what);
    exit(2);
}
