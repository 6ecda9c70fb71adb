#include "phrases.h"

#include <errno.h>
#include <stdio.h>
#include <stdlib.h>
#include <string.h>

#include "decimal.h"
#include "files.h"
#include "say.h"

enum { LINE = 500 }; /* no line is longer: a file that is not text does not fill memory */
enum { WORDS = 4 };  /* of a record */

/* Reads a line, without its end. Gives its length, which is LINE if it is too long, or -1 at the end of the file. */
static int read_line(FILE *file, char line[LINE + 1])
{
    int length = 0, letter = getc(file);

    if (letter == EOF)
        return -1;
    for (; letter != EOF && letter != '\n' && length < LINE; letter = getc(file))
        line[length++] = (char)letter;
    line[length] = '\0';
    return length;
}

/* The words before a comment, one more than a record has at most. Gives their count. */
static int split(char *line, char *words[WORDS + 1])
{
    static const char blanks[] = " \t\r";
    int count = 0;

    line[strcspn(line, "#")] = '\0';
    for (char *word = strtok(line, blanks); word != NULL && count <= WORDS; word = strtok(NULL, blanks))
        words[count++] = word;
    return count;
}

static bool record_of(char *words[WORDS], feldrime_phrase *record)
{
    const struct language *language = language_named(words[0], strlen(words[0]));

    if (language == NULL)
        return false;
    record->language = (uint32_t)(language - languages);
    return decimal_of(words[1], UINT32_MAX, &record->number) && decimal_of(words[2], UINT32_MAX, &record->first)
           && decimal_of(words[3], UINT32_MAX, &record->length);
}

static void *enlarged(void *old, size_t count, size_t size)
{
    void *larger = realloc(old, count * size);

    if (larger != NULL)
        return larger;
    say("the phrases", "%s", strerror(ENOMEM));
    exit(COULD_NOT);
}

static void add(struct phrases *list, feldrime_phrase record, uint32_t line)
{
    if (list->count == list->room) {
        list->room = 2 * list->room + 64;
        list->records = enlarged(list->records, list->room, sizeof *list->records);
        list->lines = enlarged(list->lines, list->room, sizeof *list->lines);
    }
    list->records[list->count] = record;
    list->lines[list->count++] = line;
}

/* Adds the record of a line, if the line has one. False if it is neither a record nor empty. */
static bool take_line(struct phrases *list, char *line, int length, uint32_t number)
{
    char *words[WORDS + 1];
    feldrime_phrase record;

    /* A byte 0 would hide what follows it. */
    if (length == LINE || strlen(line) != (size_t)length)
        return false;
    int count = split(line, words);
    if (count == 0)
        return true;
    if (count != WORDS || !record_of(words, &record))
        return false;
    add(list, record, number);
    return true;
}

static bool take_lines(struct phrases *list, FILE *file, char why[WHY])
{
    char line[LINE + 1];
    int length;

    for (uint32_t number = 1; (length = read_line(file, line)) >= 0; number++) {
        if (!take_line(list, line, length, number)) {
            snprintf(why, WHY, "line %u is not a phrase: a phrase is a language (de, en, fr, it or sl), its number, its "
                               "first cell and its length in cells", (unsigned)number);
            return false;
        }
    }
    return true;
}

/* The library knows which records are bad, and names the first. */
static bool records_good(const struct phrases *list, char why[WHY])
{
    feldrime_differ_answer answer = feldrime_phrases_differ(list->records, list->count);
    char hint[32] = "";

    if (answer.refusal == FELDRIME_REFUSED_RECORD)
        snprintf(hint, sizeof hint, ": line %u", (unsigned)list->lines[answer.earlier]);
    return judge((feldrime_answer){ answer.refusal, answer.beside }, hint, why);
}

bool read_phrases(const char *name, struct phrases *list, char why[WHY])
{
    FILE *file = open_file(name, why);

    *list = (struct phrases){ 0 };
    if (file == NULL)
        return false;
    bool good = take_lines(list, file, why);
    good = close_file(file, why) && good && records_good(list, why);
    if (!good)
        drop_phrases(list);
    return good;
}

bool phrases_agree(const struct phrases *list, char why[WHY])
{
    feldrime_differ_answer answer = feldrime_phrases_differ(list->records, list->count);

    if (!answer.found)
        return true;
    feldrime_phrase one = list->records[answer.earlier], other = list->records[answer.later];
    snprintf(why, WHY, "lines %u and %u disagree: %s %u has %u cells from cell %u on, and %u from cell %u on",
             (unsigned)list->lines[answer.earlier], (unsigned)list->lines[answer.later], languages[one.language].code,
             (unsigned)one.number, (unsigned)one.length, (unsigned)one.first, (unsigned)other.length,
             (unsigned)other.first);
    return false;
}

/* The library gives the first phrase of any language: after one of another language the search goes on. */
bool is_held(const struct phrases *list, const struct language *language, const struct page *page, uint32_t row)
{
    for (size_t i = 0; i < list->count; i++) {
        feldrime_phrase_answer answer = feldrime_phrase_in(&page->parts, list->records + i, list->count - i, row);
        if (!answer.found)
            return false;
        i += answer.position;
        if (&languages[list->records[i].language] == language)
            return true;
    }
    return false;
}

void drop_phrases(struct phrases *list)
{
    free(list->records);
    free(list->lines);
    *list = (struct phrases){ 0 };
}
