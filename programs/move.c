#include "move.h"

#include "files.h"
#include "say.h"

static struct page page;

/* A refused move leaves the page as it was, so the hint can still look at it. */
static bool moved(const struct move *move, char why[WHY])
{
    char hint[WHY] = "";
    feldrime_answer answer = move->run(&page.parts);

    move->hint(&page, answer.refusal, hint);
    return judge(answer, hint, why);
}

static bool write_page(const char *name)
{
    static uint8_t file[FELDRIME_PAGE_FILE];

    /* A page that was moved is accepted, and there is room for the longest file: there is nothing left to refuse. */
    feldrime_save_page(&page.parts, file, sizeof file);
    return write_file(name, file, feldrime_page_bytes(file[0]));
}

int move_page(const struct move *move, const char *from, const char *to)
{
    char why[WHY];

    if (!read_page(from, &page, why) || !moved(move, why)) {
        say(input_name(from), "%s", why);
        return COULD_NOT;
    }
    if (same_file(to, from)) {
        say(to, "the new page cannot replace the page it is made from");
        return COULD_NOT;
    }
    if (!write_page(to))
        return COULD_NOT;
    if (!is_standard(to))
        move->report(to, &page);
    return DONE;
}
