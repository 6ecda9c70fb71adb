/* feldrime check: can the page be drawn? */
#include <stdio.h>

#include "files.h"
#include "page.h"
#include "say.h"
#include "words.h"

const char check_help[] =
    "Usage: feldrime check [OPTION]... PAGE [FONT]\n"
    "Checks whether a page file can be drawn and, if a font file is given, whether that can be used.\n"
    "\n"
    "Prints a line for each good file to standard output. For each bad one it prints the reason to standard error.\n";

static struct page page;
static feldrime_font font;

static void print_page(const char *name)
{
    printf("%s: a page of %u rows and %u columns, %u x %u dots%s%s\n", name, (unsigned)page.rows,
           (unsigned)page.columns, (unsigned)page.dots, (unsigned)page.lines,
           in_field_mode(&page) ? ", field mode" : "", has_graphics(&page) ? ", chip B" : "");
}

int check_word(int count, char **operands)
{
    int status = DONE;
    char why[WHY];

    if (read_page(operands[0], &page, why)) {
        print_page(input_name(operands[0]));
    } else {
        say(input_name(operands[0]), "%s", why);
        status = COULD_NOT;
    }
    if (count == 2 && read_font(operands[1], &font, why)) {
        printf("%s: a font%s\n", input_name(operands[1]), font.group_count > 0 ? " with graphics" : "");
    } else if (count == 2) {
        say(input_name(operands[1]), "%s", why);
        status = COULD_NOT;
    }
    return status;
}
