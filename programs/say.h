/* What the program says to people when something is wrong. */
#ifndef SAY_H
#define SAY_H

/* The exit status. */
enum { DONE = 0, COULD_NOT = 1, WRONG_USE = 2 };

/* Why something failed, as one line of text. */
enum { WHY = 320 };

/* "feldrime: NAME: why", on standard error. */
void say(const char *name, const char *format, ...) __attribute__((format(printf, 2, 3)));

/* "feldrime: what is wrong" on standard error, then the command that helps: of a word, or if it is NULL of the program.
   Gives WRONG_USE. */
int wrong_use(const char *word, const char *format, ...) __attribute__((format(printf, 2, 3)));

/* The hint alone, after getopt_long has said what is wrong. Gives WRONG_USE. */
int hint_at_help(const char *word);

#endif
