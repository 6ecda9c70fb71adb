/* The end of a script that cannot be obeyed. */
#ifndef FAIL_H
#define FAIL_H

/* The line that is being obeyed, from 1. */
extern unsigned long script_line;

/* Says why, and ends the program. */
_Noreturn void fail(const char *what);

#endif
