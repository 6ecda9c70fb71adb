#include "html.h"

#include <string.h>

enum { RATE = 50 }; /* fields a second: the papers give none, and this is what European screens had */

static const char style[] =
    ":root { color-scheme: light dark; font: 1rem/1.5 system-ui, sans-serif }\n"
    "body { margin: 1rem }\n"
    "h1, p, li { max-inline-size: 40rem; overflow-wrap: anywhere }\n"
    "h1 { font-size: 1.4rem }\n"
    "pre { overflow-x: auto; font-size: .85rem }\n"
    ".refused { border-inline-start: .3rem solid; padding-inline-start: .7rem }\n";

/* --stretch is for those who know how tall a dot was on their screen. */
static const char board_style[] =
    ".board { --stretch: 1; display: grid; margin-block: 1rem }\n"
    ".board img { grid-area: 1 / 1; inline-size: 100%; block-size: auto;\n"
    "  aspect-ratio: calc(var(--dots) / var(--lines) / var(--stretch)) }\n";

static const char blink_style[] =
    ".board img + * { opacity: 0; animation: var(--period) step-end infinite }\n"
    "#still:checked ~ .board img + img { animation: none }\n"
    "@media (prefers-reduced-motion: reduce) { .board img + img { animation: none !important } }\n";

static void put_letter(FILE *out, char letter)
{
    switch (letter) {
    case '&':
        fputs("&amp;", out);
        break;
    case '<':
        fputs("&lt;", out);
        break;
    case '>':
        fputs("&gt;", out);
        break;
    case '"':
        fputs("&quot;", out);
        break;
    default:
        fputc(letter, out);
    }
}

static void put_text(FILE *out, const char *text)
{
    for (; *text != '\0'; text++)
        put_letter(out, *text);
}

/* Cells of graphics on end are the word in brackets, and then blanks up to the next cell if there is room for them. */
static void put_cell(FILE *out, const struct reading *reading, uint32_t line, uint32_t c, const char *word)
{
    const bool *graphics = reading->graphics[line];
    uint32_t first = c;

    while (graphics[c] && first > 0 && graphics[first - 1])
        first--;
    if (graphics[c] && first == c)
        fprintf(out, "[%s]", word);
    else if (!graphics[c] || c - first >= strlen(word) + 2)
        put_letter(out, reading->letter[line][c]);
}

/* The lines that are read. What is struck stands between open and close. */
static void put_lines(FILE *out, const struct reading *reading, const char *open, const char *close, const char *word)
{
    for (uint32_t line = 0; line < reading->lines; line++) {
        bool struck = false;
        for (uint32_t c = 0; c < reading->length[line]; c++) {
            if (reading->struck[line][c] != struck)
                fputs(struck ? close : open, out);
            struck = reading->struck[line][c];
            put_cell(out, reading, line, c, word);
        }
        fputs(struck ? close : "", out);
        fputc('\n', out);
    }
}

static void put_head(FILE *out, const char *language, const char *title)
{
    fprintf(out, "<!DOCTYPE html>\n<html lang=\"%s\">\n<head>\n<meta charset=\"utf-8\">\n"
                 "<meta name=\"viewport\" content=\"width=device-width, initial-scale=1\">\n<title>", language);
    put_text(out, title);
    fprintf(out, "</title>\n<style>\n%s", style);
}

/* When a picture is to be seen, in hundredths of the period; it stays as it is until the next line. */
static void put_keyframes(FILE *out, const struct fields *fields, int picture)
{
    fprintf(out, "@keyframes field%d {", fields->first[picture]);
    for (int look = 0; STEP * look < fields->period; look++) {
        bool seen = fields->shown[look] == picture;
        if (look == 0 || seen != (fields->shown[look - 1] == picture))
            fprintf(out, " %.10g%% { opacity: %d }", 100.0 * STEP * look / fields->period, seen);
    }
    fprintf(out, " }\n.board img + .field%d { animation-name: field%d }\n", fields->first[picture],
            fields->first[picture]);
}

/* On a wide screen a dot is one pixel or two, and sharp; on a narrow one the picture is as wide as the screen. */
static void put_board_style(FILE *out, const struct page *page, const struct fields *fields)
{
    unsigned dots = page->dots, margins = 64;

    fputs(board_style, out);
    fprintf(out, ".board { --dots: %u; --lines: %u; max-inline-size: %upx }\n", dots, (unsigned)page->lines, dots);
    fprintf(out, "@media (min-width: %upx) { .board img { image-rendering: pixelated } }\n", dots + margins);
    fprintf(out, "@media (min-width: %upx) { .board { max-inline-size: %upx } }\n", 2 * dots + margins, 2 * dots);
    if (fields->count == 1)
        return;
    fprintf(out, ".board { --period: %.10gs }\n%s", (double)fields->period / RATE, blink_style);
    for (int i = 1; i < fields->count; i++)
        put_keyframes(out, fields, i);
}

/* The first picture has the text as its alternative. The others lie upon it in their fields, and say the same. */
static void put_board(FILE *out, const struct entry *entry, const struct page *page, const struct fields *fields,
                      const struct reading *reading, const struct language *language)
{
    unsigned dots = page->dots, lines = page->lines;
    char open[64];

    snprintf(open, sizeof open, "[%s: ", language->struck);
    if (fields->count > 1)
        fprintf(out, "<input type=\"checkbox\" id=\"still\"> <label for=\"still\">%s</label>\n", language->still);
    fprintf(out, "<div class=\"board\"%s>\n<img src=\"%s.png\" width=\"%u\" height=\"%u\" alt=\"",
            entry->language == NULL ? " lang=\"\"" : "", entry->stem, dots, lines);
    if (is_empty(reading))
        put_text(out, language->empty);
    else
        put_lines(out, reading, open, "]", language->graphics);
    fputs("\">\n", out);
    for (int i = 1; i < fields->count; i++)
        fprintf(out, "<img src=\"%s.%d.png\" width=\"%u\" height=\"%u\" alt=\"\" class=\"field%d\">\n",
                entry->stem, fields->first[i], dots, lines, fields->first[i]);
    fputs("</div>\n", out);
}

void html_page(FILE *out, const struct entry *entry, const struct page *page, const struct fields *fields,
               const struct reading *reading)
{
    const struct language *language = entry->language == NULL ? english : entry->language;
    const char *unknown = entry->language == NULL ? " lang=\"\"" : "";

    put_head(out, language->code, entry->title);
    put_board_style(out, page, fields);
    fprintf(out, "</style>\n</head>\n<body>\n<main>\n<h1%s>", unknown);
    put_text(out, entry->title);
    fputs("</h1>\n", out);
    put_board(out, entry, page, fields, reading, language);
    fprintf(out, "<details>\n<summary>%s</summary>\n<pre%s>\n", language->text, unknown);
    put_lines(out, reading, "<s>", "</s>", language->graphics);
    fprintf(out, "</pre>\n</details>\n<p><small>%s%s%s</small></p>\n", language->aspect, fields->count > 1 ? " " : "",
            fields->count > 1 ? language->rate : "");
    fprintf(out, "</main>\n<nav><a href=\"index.html\" hreflang=\"en\">%s</a></nav>\n</body>\n</html>\n",
            language->pages);
}

void html_refused(FILE *out, const struct entry *entry)
{
    put_head(out, english->code, entry->stem);
    fprintf(out, "</style>\n</head>\n<body>\n<main>\n<h1>%s</h1>\n", entry->stem);
    fputs("<p class=\"refused\">This page is not shown: ", out);
    put_text(out, entry->why);
    fprintf(out, "</p>\n</main>\n<nav><a href=\"index.html\">%s</a></nav>\n</body>\n</html>\n", english->pages);
}

static void put_entry(FILE *out, const struct entry *entry)
{
    const char *code = entry->language == NULL ? "" : entry->language->code;

    if (entry->why[0] != '\0') {
        fprintf(out, "<li><p class=\"refused\">%s is not shown: ", entry->stem);
        put_text(out, entry->why);
        fputs("</p></li>\n", out);
        return;
    }
    fprintf(out, "<li><a href=\"%s.html\" lang=\"%s\">", entry->stem, code);
    put_text(out, entry->title);
    fprintf(out, "</a> (%s", entry->stem);
    if (entry->language != NULL)
        fprintf(out, ", <span lang=\"%s\">%s</span>", code, entry->language->name);
    fputs(")</li>\n", out);
}

void html_index(FILE *out, const struct entry *entries, int count)
{
    put_head(out, english->code, english->pages);
    fprintf(out, "</style>\n</head>\n<body>\n<main>\n<h1>%s</h1>\n<ul>\n", english->pages);
    for (int i = 0; i < count; i++)
        put_entry(out, &entries[i]);
    fputs("</ul>\n</main>\n</body>\n</html>\n", out);
}
