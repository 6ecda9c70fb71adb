/* feldrime site: a web site of pages, as a generator makes it. */
#define _GNU_SOURCE
#include <errno.h>
#include <stdio.h>
#include <stdlib.h>
#include <string.h>
#include <sys/stat.h>

#include "files.h"
#include "html.h"
#include "phrases.h"
#include "png.h"
#include "say.h"
#include "stem.h"
#include "text.h"
#include "words.h"

const char site_help[] =
    "Usage: feldrime site [OPTION]... FONT OUT_FOLDER PAGE...\n"
    "Makes a web site: for each page its picture and a web page, with the text as the picture's alternative, and an\n"
    "index. The site needs no network and no scripts.\n"
    "\n"
    "  FONT        a font file, for all pages\n"
    "  OUT_FOLDER  the folder for the site, made if it is missing. Files of the same names are replaced, each once the\n"
    "              new one is complete, the index last. Other files stay\n"
    "  PAGE...     page files. NAME.page becomes NAME.html and NAME.png; in NAME, everything but letters, digits, - and _\n"
    "              becomes _. Standard input becomes stdin.html\n"
    "\n"
    "      --phrases FILE    a list of phrases, written as 'feldrime rows --help' describes. A page is shown only if each\n"
    "                        of its rows is in a phrase of the page's language\n"
    "      --unchecked PAGE  one more page, for example a typed sheet, that is shown whatever --phrases says. These pages\n"
    "                        come last in the index. The option can be given several times\n"
    "\n"
    "A page that blinks has a picture NAME.FIELD.png for each of its looks, and the web page shows them in turn.\n"
    "If a page is refused, or has a row in no phrase, its entry in the index and its web page say why, and each such row\n"
    "is reported with its cells and its text. The other pages are still made. Nothing is made if the list has a bad line,\n"
    "or two phrases of the same language and number that differ.\n"
    "The text is what the picture shows: hidden text is left out, struck text is marked as struck, and graphics, which\n"
    "chip B has, are '[graphics]' in the page's language. A headline of double height, which is two rows of the page, is\n"
    "one line of the text.\n"
    "\n"
    "The name of a page file gives its language: de, en, fr, it or sl as NAME, or as the first or last part of a NAME\n"
    "whose parts are separated by -, _ or dots. A page of any other name has labels in English, and a text without a\n"
    "language.\n"
    "The board's papers give no aspect ratio: a dot is a pixel, and the web page's style scales the picture. They give no\n"
    "frame rate either: the site shows 50 fields a second.\n";

static feldrime_font font;
static struct phrases list;
static struct page page;
static struct fields fields;
static struct reading reading;

/* From the options. */
static const char *list_name, **unchecked;
static int unchecked_count;

static char *path(const char *folder, const char *stem, const char *ending)
{
    char *name;

    if (asprintf(&name, "%s/%s%s", folder, stem, ending) >= 0)
        return name;
    say(stem, "%s", strerror(ENOMEM));
    exit(COULD_NOT);
}

static bool write_pictures(const char *folder, const char *stem)
{
    for (int i = 0; i < fields.count; i++) {
        char ending[32];
        snprintf(ending, sizeof ending, i == 0 ? ".png" : ".%d.png", fields.first[i]);
        char *name = path(folder, stem, ending);
        bool good = write_png(name, &page, fields.pictures[i]);
        free(name);
        if (!good)
            return false;
    }
    return true;
}

/* What is printed to `out` becomes the file's bytes. */
static bool finish(FILE *out, char **text, size_t *size, const char *folder, const char *stem)
{
    char *name = path(folder, stem, ".html");
    bool good = fclose(out) == 0 && write_file(name, *text, *size);

    free(name);
    free(*text);
    return good;
}

static FILE *begin(char **text, size_t *size)
{
    FILE *out = open_memstream(text, size);

    if (out != NULL)
        return out;
    say("a web page", "%s", strerror(errno));
    exit(COULD_NOT);
}

/* Why a page cannot have its name in the site. "index" is the index's. */
static const char *taken(const struct entry *entries, int i)
{
    if (strcasecmp(entries[i].stem, "index") == 0)
        return "its name is that of the site's index";
    for (int earlier = 0; earlier < i; earlier++)
        if (strcasecmp(entries[earlier].stem, entries[i].stem) == 0)
            return "an earlier page has the same name in the site";
    return NULL;
}

static void report_row(const struct entry *entry, uint32_t row)
{
    uint16_t cells[FELDRIME_CELLS];
    char text[TEXT];
    uint32_t count = cells_of(&page, row, cells);

    text_of(&page, row, text);
    say(input_name(entry->file), "row %u, cells %u to %u, is in no phrase of %s: |%s", (unsigned)row, (unsigned)cells[0],
        (unsigned)cells[count - 1], entry->language->code, text);
}

/* Whether every row is in a phrase of the page's language. Each that is not is reported, and entry->why becomes how many
   there are. */
static bool in_phrases(struct entry *entry)
{
    unsigned outside = 0;

    if (entry->language == NULL) {
        strcpy(entry->why, "its name gives no language, so none of the phrases is its own");
        return false;
    }
    for (uint32_t row = 0; row < page.rows; row++) {
        if (!is_held(&list, entry->language, &page, row)) {
            report_row(entry, row);
            outside++;
        }
    }
    snprintf(entry->why, WHY, "%u of its %u rows %s in no phrase of its language", outside, (unsigned)page.rows,
             outside == 1 ? "is" : "are");
    return outside == 0;
}

/* Reads, draws and writes a page. If something is wrong, entry->why says what. */
static void make_page(struct entry *entry, const char *folder)
{
    char *text;
    size_t size;

    if (!read_page(entry->file, &page, entry->why) || (entry->checked && !in_phrases(entry))) {
        FILE *out = begin(&text, &size);
        html_refused(out, entry);
        finish(out, &text, &size, folder, entry->stem);
        return;
    }
    strcpy(entry->why, "it could not be written");
    if (!fields_of(&page, &font, &fields))
        return;
    if (read_picture(&page, &font, &fields, &reading) && write_pictures(folder, entry->stem)) {
        title_of(&reading, entry->title);
        if (entry->title[0] == '\0')
            strcpy(entry->title, entry->stem);
        FILE *out = begin(&text, &size);
        html_page(out, entry, &page, &fields, &reading);
        if (finish(out, &text, &size, folder, entry->stem))
            entry->why[0] = '\0';
    }
    drop_fields(&fields);
}

static int make_pages(struct entry *entries, int count, const char *folder)
{
    int status = DONE;

    for (int i = 0; i < count; i++) {
        struct entry *entry = &entries[i];
        entry->language = language_of(entry->file);
        stem_of(entry->file, entry->stem);
        const char *why = taken(entries, i);
        if (why != NULL)
            snprintf(entry->why, WHY, "%s", why);
        else
            make_page(entry, folder);
        if (entry->why[0] != '\0') {
            say(input_name(entry->file), "%s", entry->why);
            status = COULD_NOT;
        } else {
            printf("%s/%s.html\n", folder, entry->stem);
        }
    }
    return status;
}

static bool make_folder(const char *name)
{
    struct stat found;

    if (mkdir(name, 0777) == 0 || (errno == EEXIST && stat(name, &found) == 0 && S_ISDIR(found.st_mode)))
        return true;
    say(name, "%s", errno == EEXIST ? "is not a folder" : strerror(errno));
    return false;
}

/* Reads what all pages need. Says why it could not. A list that contradicts itself vouches for no row. */
static bool read_common(const char *font_name)
{
    char why[WHY];

    if (!read_font(font_name, &font, why)) {
        say(input_name(font_name), "%s", why);
        return false;
    }
    if (list_name != NULL && !(read_phrases(list_name, &list, why) && phrases_agree(&list, why))) {
        say(input_name(list_name), "%s", why);
        return false;
    }
    return true;
}

static int make_site(struct entry *entries, int count, const char *folder)
{
    char *text;
    size_t size;
    int status = make_pages(entries, count, folder);
    FILE *out = begin(&text, &size);

    html_index(out, entries, count);
    if (!finish(out, &text, &size, folder, "index"))
        return COULD_NOT;
    printf("%s/index.html\n", folder);
    return status;
}

int site_option(int option, char *value)
{
    if (option == PHRASES && list_name != NULL)
        return wrong_use("site", "option '--phrases' is given twice");
    if (option == PHRASES) {
        list_name = value;
        return DONE;
    }
    unchecked = realloc(unchecked, ((size_t)unchecked_count + 1) * sizeof *unchecked);
    if (unchecked == NULL) {
        say(value, "%s", strerror(ENOMEM));
        exit(COULD_NOT);
    }
    unchecked[unchecked_count++] = value;
    return DONE;
}

/* The pages of the site, those to check first. */
static struct entry *entries_of(int count, char **checked)
{
    struct entry *entries = calloc((size_t)(count + unchecked_count), sizeof *entries);

    if (entries == NULL) {
        say("the pages", "%s", strerror(ENOMEM));
        exit(COULD_NOT);
    }
    for (int i = 0; i < count + unchecked_count; i++) {
        entries[i].checked = list_name != NULL && i < count;
        entries[i].file = i < count ? checked[i] : unchecked[i - count];
    }
    return entries;
}

int site_word(int count, char **operands)
{
    const char *folder = operands[1];
    int pages = count - 2, status = COULD_NOT;

    if (pages + unchecked_count == 0)
        return wrong_use("site", "missing operand");
    if (is_standard(folder))
        return wrong_use("site", "a site is a folder and cannot go to standard output");
    struct entry *entries = entries_of(pages, operands + 2);
    if (read_common(operands[0]) && make_folder(folder))
        status = make_site(entries, pages + unchecked_count, folder);
    drop_phrases(&list);
    free(entries);
    free(unchecked);
    return status;
}
