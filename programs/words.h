/* The program's words. Each has its own file, is handed its operands, as many as main.c says, and gives the exit status.
   ./feldrime prints the help texts from these files without building anything, so each is a literal with one line of
   help in a line. */
#ifndef WORDS_H
#define WORDS_H

int draw_word(int count, char **operands);
int rows_word(int count, char **operands);
int site_word(int count, char **operands);
int check_word(int count, char **operands);
int catalogue_word(int count, char **operands);
int sheet_word(int count, char **operands);

extern const char draw_help[], rows_help[], site_help[], check_help[], catalogue_help[], sheet_help[];

/* The options of site: each is handed over as soon as it is met. Gives DONE or WRONG_USE. */
enum { PHRASES = 'p', UNCHECKED = 'u' };
int site_option(int option, char *value);

#endif
