/* feldrime draw: a page's picture as a PNG file. */
#include <stdio.h>
#include <stdlib.h>

#include "decimal.h"
#include "files.h"
#include "page.h"
#include "png.h"
#include "say.h"
#include "words.h"

const char draw_help[] =
    "Usage: feldrime draw [OPTION]... PAGE FONT OUT.png [FIELD]\n"
    "Draws a page as a PNG picture, one pixel for each dot.\n"
    "\n"
    "  PAGE     a page file\n"
    "  FONT     a font file\n"
    "  OUT.png  the picture. A file of this name is replaced once the new one is complete\n"
    "  FIELD    the frame to draw, 0 to 255, which decides whether blinking cells are visible; 0 if left out\n";

static struct page page;
static feldrime_font font;

int draw_word(int count, char **operands)
{
    const char *out = operands[2];
    char why[WHY];
    uint32_t field = 0;

    if (count == 4 && !decimal_of(operands[3], 255, &field))
        return wrong_use("draw", "'%s' is not a field: a field is a number from 0 to 255", operands[3]);
    if (!read_page(operands[0], &page, why)) {
        say(input_name(operands[0]), "%s", why);
        return COULD_NOT;
    }
    if (!read_font(operands[1], &font, why)) {
        say(input_name(operands[1]), "%s", why);
        return COULD_NOT;
    }
    if (same_file(out, operands[0]) || same_file(out, operands[1])) {
        say(out, "the picture cannot replace a file it is drawn from");
        return COULD_NOT;
    }
    uint8_t *picture = picture_of(&page, &font, (uint8_t)field);
    bool good = picture != NULL && write_png(out, &page, picture);
    free(picture);
    if (good && !is_standard(out))
        printf("%s: %u x %u dots\n", out, (unsigned)page.dots, (unsigned)page.lines);
    return good ? DONE : COULD_NOT;
}
