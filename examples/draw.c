/* Draws a page as a picture: draw PAGE FONT FIELD > picture.pgm
   PAGE and FONT are files, - is standard input; FIELD is the number of the frame to draw, which counts modulo 256.
   Exit status is 1 if a file is refused, or cannot be read or written, and 2 if the arguments are wrong. */
#include <errno.h>
#include <stdio.h>
#include <stdlib.h>
#include <string.h>

#include "feldrime.h"

static feldrime_page page;
static feldrime_font font;
static uint8_t picture[FELDRIME_PICTURE];

/* One byte more than the longest file has: a file that is too long reaches the library as one. */
static uint8_t file[FELDRIME_PAGE_FILE + 1];

static void fail(const char *name)
{
    fprintf(stderr, "draw: %s: %s\n", name, strerror(errno));
    exit(1);
}

static void judge(const char *name, feldrime_answer answer, const char *hint)
{
    if (answer.refusal == FELDRIME_DONE)
        return;
    fprintf(stderr, "draw: %s: refused %u, %s%s", name, (unsigned)answer.refusal, feldrime_meaning(answer.refusal),
            hint);
    if (answer.beside > 0)
        fprintf(stderr, "; clocks missing: %u", (unsigned)answer.beside);
    fputc('\n', stderr);
    exit(1);
}

/* The frame's number modulo 256, however many digits it has. */
static uint8_t field_of(const char *text)
{
    unsigned field = 0;
    size_t digits = strspn(text, "0123456789");

    if (digits == 0 || text[digits] != '\0') {
        fprintf(stderr, "draw: FIELD is not a number: %s\n", text);
        exit(2);
    }
    for (size_t i = 0; i < digits; i++)
        field = (10 * field + (unsigned)(text[i] - '0')) % 256;
    return (uint8_t)field;
}

static size_t read_file(const char *name)
{
    FILE *stream = strcmp(name, "-") == 0 ? stdin : fopen(name, "rb");

    if (stream == NULL)
        fail(name);
    size_t count = fread(file, 1, sizeof file, stream);
    if (ferror(stream))
        fail(name);
    if (stream != stdin)
        fclose(stream);
    return count;
}

/* Whether the file in the buffer has the size that its version byte gives a page, or a font. */
static int is_page_size(size_t bytes)
{
    return bytes > 0 && bytes == feldrime_page_bytes(file[0]);
}

static int is_font_size(size_t bytes)
{
    return bytes > 0 && bytes == feldrime_font_bytes(file[0]);
}

static void load_page(const char *name)
{
    size_t bytes = read_file(name);

    judge(name, feldrime_load_page(&page, file, bytes),
          is_font_size(bytes) ? "; it has a font's size: PAGE comes before FONT" : "");
}

static void load_font(const char *name)
{
    size_t bytes = read_file(name);
    feldrime_font_answer read = feldrime_load_font(&font, file, bytes);
    feldrime_answer answer = { read.refusal, read.beside };

    judge(name, answer, is_page_size(bytes) ? "; it has a page's size: FONT comes after PAGE" : "");
}

/* A PGM picture: a header, then a byte for each dot. */
static void write_picture(void)
{
    static const uint8_t brightness[] = { 0, 170, 255 }; /* of black, gray and white */
    feldrime_size size = feldrime_size_of(&page);
    size_t count = (size_t)size.lines * size.dots;

    for (size_t i = 0; i < count; i++)
        picture[i] = brightness[picture[i]];
    printf("P5\n%u %u\n255\n", (unsigned)size.dots, (unsigned)size.lines);
    if (fwrite(picture, 1, count, stdout) != count || fflush(stdout) != 0)
        fail("the picture");
}

int main(int count, char *arguments[])
{
    if (count != 4) {
        fputs("usage: draw PAGE FONT FIELD > picture.pgm\n", stderr);
        return 2;
    }
    if (feldrime_version() != FELDRIME_VERSION) {
        fputs("draw: feldrime.h and the library have different versions\n", stderr);
        return 1;
    }
    uint8_t field = field_of(arguments[3]);
    load_page(arguments[1]);
    load_font(arguments[2]);
    judge(arguments[1], feldrime_draw(&page, &font, field, picture, sizeof picture), "");
    write_picture();
    return 0;
}
