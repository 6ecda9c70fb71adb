/* feldrime-listing: C's main. All else of the program is proved, in crates/listing_program. */
#define _POSIX_C_SOURCE 200809L
#include <errno.h>
#include <getopt.h>
#include <signal.h>
#include <stdint.h>
#include <stdio.h>
#include <string.h>
#include <unistd.h>

#include "feldrime.h"

/* Of crates/listing_program. The first two read a page file and what follows it, and answer how much there was; errno
 * says whether reading failed. The others write, and say how that ended, the first only if the page file is refused. */
size_t feldrime_listing_read_page(uint8_t *page, size_t size);
size_t feldrime_listing_read(uint8_t *buffer, size_t size);
uint32_t feldrime_listing_page(const uint8_t *page, size_t page_count);
uint32_t feldrime_listing(const uint8_t *page, size_t page_count, const uint8_t *font, size_t font_count);
enum { WRITTEN, UNREAD, UNWRITTEN, ACCEPTED };

/* One byte more than the longest font file has, so that a longer one shows. */
static uint8_t page[FELDRIME_PAGE_FILE], font[FELDRIME_FONT_FILE + 1];

static const char help[] =
    "Usage: cat PAGE FONT | feldrime-listing [OPTION]\n"
    "Reads a page file followed by a font file from standard input, and prints the page's picture in letters: the number\n"
    "of lines and of dots in a line, then the lines, with '.' for black, 'o' for gray and '#' for white. If the page or\n"
    "the font is refused it prints 'refused N' instead, and feldrime.h explains the number N.\n"
    "\n"
    "  -h, --help     print this help and exit\n"
    "      --version  print the version and exit\n"
    "\n"
    "Exit status is 0 if either was printed completely, 1 if the input cannot be read or the output cannot be written, and\n"
    "2 if the command is wrong.\n";

enum { VERSION = 'V' };
static const struct option options[] = {
    { "help", no_argument, NULL, 'h' }, { "version", no_argument, NULL, VERSION }, { NULL, 0, NULL, 0 },
};

static int failed(const char *what)
{
    fprintf(stderr, "feldrime-listing: %s: %s\n", what, strerror(errno));
    return 1;
}

static int finish(void)
{
    return fflush(stdout) != 0 || ferror(stdout) ? failed("standard output") : 0;
}

static int hint_at_help(void)
{
    fputs("Try 'feldrime-listing --help'.\n", stderr);
    return 2;
}

/* A page that is refused is reported before the font is read. */
static uint32_t listed(void)
{
    size_t page_count, font_count;
    uint32_t ending;

    errno = 0;
    page_count = feldrime_listing_read_page(page, sizeof page);
    if (errno != 0)
        return UNREAD;
    ending = feldrime_listing_page(page, page_count);
    if (ending != ACCEPTED)
        return ending;
    errno = 0;
    font_count = feldrime_listing_read(font, sizeof font);
    if (errno != 0)
        return UNREAD;
    return feldrime_listing(page, page_count, font, font_count);
}

static int list(void)
{
    /* A file that would exceed the limit on its size is then reported like any other that cannot be written. */
    signal(SIGXFSZ, SIG_IGN);
    uint32_t ending = listed();
    if (ending == UNREAD)
        return failed("standard input");
    /* Some file systems report only now that a write has failed. */
    if (ending != WRITTEN || close(STDOUT_FILENO) != 0)
        return failed("standard output");
    return 0;
}

int main(int count, char **arguments)
{
    static char name[] = "feldrime-listing"; /* how getopt_long begins its messages */

    arguments[0] = name;
    switch (getopt_long(count, arguments, "h", options, NULL)) {
    case 'h':
        fputs(help, stdout);
        return finish();
    case VERSION:
        printf("feldrime-listing %u\n", (unsigned)FELDRIME_VERSION);
        return finish();
    case '?':
        return hint_at_help();
    }
    if (optind < count) {
        fprintf(stderr, "feldrime-listing: extra operand '%s'\n", arguments[optind]);
        return hint_at_help();
    }
    return list();
}
