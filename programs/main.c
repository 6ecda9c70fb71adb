/* feldrime: one program with a word for each job, over the library's header alone. */
#define _POSIX_C_SOURCE 200809L
#include <errno.h>
#include <getopt.h>
#include <signal.h>
#include <stdio.h>
#include <string.h>

#include "feldrime.h"
#include "say.h"
#include "words.h"

static const char main_text[] =
    "Usage: feldrime WORD [OPTION]... OPERAND...\n"
    "Draws and checks the pages of an old terminal board, dot for dot.\n"
    "\n"
    "  draw PAGE FONT OUT.png [FIELD]       draw a page as a PNG picture\n"
    "  rows PAGE [PHRASES]                  list where each row of a page comes from\n"
    "  site FONT OUT_FOLDER PAGE...         make a web site of pages\n"
    "  check PAGE [FONT]                    check whether a page can be drawn\n"
    "  catalogue PAGE OUT                   turn a typed sheet into a page with a row table\n"
    "  sheet PAGE OUT                       turn a page with a row table into a typed sheet\n"
    "\n"
    "'feldrime WORD --help' says more about one of them.\n";

/* Follows every help. */
static const char common_text[] =
    "\n"
    "  -h, --help     print this help and exit\n"
    "      --version  print the version and exit\n"
    "\n"
    "Options may come before or after operands; everything after -- is an operand. As a file, - is standard input or\n"
    "standard output, and ./- is a file of that name. Standard input can be read only once.\n"
    "Exit status is 0 on success, 1 if a file is refused or something cannot be done, and 2 if the command is wrong.\n";

enum { VERSION = 'V' };
#define COMMON_OPTIONS { "help", no_argument, NULL, 'h' }, { "version", no_argument, NULL, VERSION }, { NULL, 0, NULL, 0 }
static const struct option common_options[] = { COMMON_OPTIONS };
static const struct option site_options[] = {
    { "phrases", required_argument, NULL, PHRASES }, { "unchecked", required_argument, NULL, UNCHECKED }, COMMON_OPTIONS,
};

enum { ANY = -1 };

static const struct word {
    const char *name, *help;
    int (*run)(int count, char **operands);
    int fewest, most; /* operands */
    const struct option *options;
} words[] = {
    { "draw", draw_help, draw_word, 3, 4, common_options },
    { "rows", rows_help, rows_word, 1, 2, common_options },
    { "site", site_help, site_word, 2, ANY, site_options },
    { "check", check_help, check_word, 1, 2, common_options },
    { "catalogue", catalogue_help, catalogue_word, 2, 2, common_options },
    { "sheet", sheet_help, sheet_word, 2, 2, common_options },
};
enum { WORDS = sizeof words / sizeof *words };

static int help(const char *text)
{
    printf("%s%s", text, common_text);
    return DONE;
}

static int version(void)
{
    printf("feldrime %u\n", (unsigned)feldrime_version());
    return DONE;
}

/* Takes the options among the arguments and runs the word with the operands, which getopt_long puts last. */
static int run(const struct word *word, int count, char **arguments)
{
    int option, status = DONE;

    optind = 0; /* begins anew */
    while ((option = getopt_long(count, arguments, "h", word->options, NULL)) != -1 && status == DONE) {
        if (option == 'h')
            return help(word->help);
        if (option == VERSION)
            return version();
        status = option == '?' ? hint_at_help(word->name) : site_option(option, optarg);
    }
    if (status != DONE)
        return status;
    int operands = count - optind;
    if (operands < word->fewest)
        return wrong_use(word->name, "missing operand");
    if (word->most != ANY && operands > word->most)
        return wrong_use(word->name, "extra operand '%s'", arguments[optind + word->most]);
    return word->run(operands, arguments + optind);
}

/* What comes before the word is the program's own. */
static int run_named(int count, char **arguments)
{
    static char name[] = "feldrime"; /* how getopt_long begins its messages */
    int option;

    arguments[0] = name;
    while ((option = getopt_long(count, arguments, "+h", common_options, NULL)) != -1) {
        if (option == 'h')
            return help(main_text);
        return option == VERSION ? version() : hint_at_help(NULL);
    }
    if (optind >= count)
        return wrong_use(NULL, "missing word");
    int place = optind;
    for (int i = 0; i < WORDS; i++) {
        if (strcmp(arguments[place], words[i].name) == 0) {
            arguments[place] = name;
            return run(&words[i], count - place, arguments + place);
        }
    }
    return wrong_use(NULL, "unknown word '%s'", arguments[place]);
}

int main(int count, char **arguments)
{
    if (feldrime_version() != FELDRIME_VERSION) {
        say("the library", "version %u, but this program was compiled for version %u", (unsigned)feldrime_version(),
            (unsigned)FELDRIME_VERSION);
        return COULD_NOT;
    }
    /* A file that would exceed the limit on its size is then reported like any other that cannot be written. */
    signal(SIGXFSZ, SIG_IGN);
    int status = run_named(count, arguments);

    if (fflush(stdout) == 0 && !ferror(stdout))
        return status;
    say("standard output", "%s", strerror(errno));
    return COULD_NOT;
}
