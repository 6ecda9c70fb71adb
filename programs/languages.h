/* The words that a web page adds to its picture, in the languages of the bulletins. */
#ifndef LANGUAGES_H
#define LANGUAGES_H

#include <stddef.h>

struct language {
    const char *code, *name;
    const char *still, *text, *struck, *graphics, *empty, *pages, *aspect, *rate;
};

enum { LANGUAGES = 5 };
extern const struct language languages[LANGUAGES];

/* The language of a code, of so many letters, small or capital. NULL if there is none. */
const struct language *language_named(const char *code, size_t length);

/* The language of a page file, from its name: the first or the last part of the name before its ending. Parts are
   separated by - _ or a dot. "de.page", "de-61.page" and "bulletin_de.page" are German. NULL if neither is a language's
   code. */
const struct language *language_of(const char *file);

/* For a page whose name gives no language, and for the index. */
extern const struct language *const english;

#endif
