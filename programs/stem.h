/* Names for a page's files in a web site. */
#ifndef STEM_H
#define STEM_H

enum { STEM = 256 };

/* The file's own name without folders and without .page; of standard input, "stdin". All but letters and digits of
   ASCII, - and _ become _: the name needs no quoting in a web page and has no dot. */
void stem_of(const char *file, char stem[STEM]);

#endif
