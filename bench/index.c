/* An index of phrases: plain C, the measure for the library's two calls, and the list that both are asked. */
#include "index.h"

#include <stdio.h>
#include <string.h>

#include "rules.h"

feldrime_phrase phrases[PHRASES];

void make_phrases(void)
{
    uint32_t dice = 1;

    for (uint32_t i = 0; i < PHRASES; i++) {
        dice = dice * 1664525 + 1013904223;
        phrases[i] = (feldrime_phrase){ i % 5, i / 5, (dice >> 8) % (MEMORY - 80), 80 };
    }
}

/* ---- plain C ---- */

static int is_bad(const feldrime_phrase *p)
{
    return p->length == 0 || (uint64_t)p->first + p->length > MEMORY;
}

/* The lowest and the highest cell that a row fetches. */
struct ends {
    unsigned low, high;
};

static struct ends row_ends(const uint8_t *numbers, const uint8_t *chars, uint32_t row)
{
    const uint8_t *ir = numbers + 1;
    struct row_entry entry = row_begin(numbers, chars, row);
    unsigned cells = cells_in(entry.code, ir[5] + 1u), at = entry.start;
    struct ends ends = { at, at };

    for (unsigned c = 0; c < cells; c++) {
        ends.low = at < ends.low ? at : ends.low;
        ends.high = at > ends.high ? at : ends.high;
        at = at == last_address(ir) ? first_address(ir) : (at + 1) % MEMORY;
    }
    return ends;
}

feldrime_phrase_answer plain_phrase_of_row(
    const uint8_t *numbers, size_t numbers_count,
    const uint8_t *chars, size_t chars_count,
    const feldrime_phrase *list, size_t count,
    uint32_t row)
{
    if (numbers_count != 32 || version_refused(numbers[0]) || chars_count != MEMORY)
        return (feldrime_phrase_answer){ 3, 0, 0, 0 };

    feldrime_answer refused = page_refused(numbers);
    if (refused.refusal != 0)
        return (feldrime_phrase_answer){ refused.refusal, refused.beside, 0, 0 };
    if (row > (numbers[1 + 4] & 127u))
        return (feldrime_phrase_answer){ 7, 0, 0, 0 };

    struct ends ends = row_ends(numbers, chars, row);
    feldrime_phrase_answer answer = { 0, 0, 0, 0 };
    for (size_t i = 0; i < count; i++) {
        if (is_bad(&list[i]))
            return (feldrime_phrase_answer){ 20, 0, 0, i };
        if (!answer.found && list[i].first <= ends.low && ends.high < list[i].first + list[i].length)
            answer = (feldrime_phrase_answer){ 0, 0, 1, i };
    }
    return answer;
}

feldrime_differ_answer plain_phrases_differ(const feldrime_phrase *list, size_t count)
{
    for (size_t i = 0; i < count; i++)
        if (is_bad(&list[i]))
            return (feldrime_differ_answer){ 20, 0, 0, i, 0 };
    for (size_t i = 0; i < count; i++)
        for (size_t j = i + 1; j < count; j++)
            if (list[i].language == list[j].language && list[i].number == list[j].number
                && (list[i].first != list[j].first || list[i].length != list[j].length))
                return (feldrime_differ_answer){ 0, 0, 1, i, j };
    return (feldrime_differ_answer){ 0, 0, 0, 0, 0 };
}

/* ---- both answer the same ---- */

static int same_rows(const struct set *set, size_t count)
{
    for (size_t p = 0; p < set->count; p++)
        for (uint32_t row = 0; row < 130; row++) {
            feldrime_phrase_answer a = find_phrase(feldrime_phrase_of_row, &set->pages[p], count, row);
            feldrime_phrase_answer b = find_phrase(plain_phrase_of_row, &set->pages[p], count, row);

            if (a.refusal != b.refusal || a.beside != b.beside || a.found != b.found || a.position != b.position) {
                printf("phrase of row %u: the library answers %u, %zu and plain C %u, %zu\n", (unsigned)row, (unsigned)a.refusal, a.position,
                       (unsigned)b.refusal, b.position);
                return 0;
            }
        }
    return 1;
}

static int same_pair(size_t count)
{
    feldrime_differ_answer a = feldrime_phrases_differ(phrases, count);
    feldrime_differ_answer b = plain_phrases_differ(phrases, count);

    if (a.refusal == b.refusal && a.beside == b.beside && a.found == b.found && a.earlier == b.earlier && a.later == b.later)
        return 1;
    printf("phrases that differ: the library answers %u, %zu, %zu and plain C %u, %zu, %zu\n", (unsigned)a.refusal, a.earlier, a.later,
           (unsigned)b.refusal, b.earlier, b.later);
    return 0;
}

/* With one record changed, which is as it was afterwards. */
static int same_with(const struct set *set, size_t at, feldrime_phrase changed)
{
    feldrime_phrase kept = phrases[at];

    phrases[at] = changed;
    int same = same_rows(set, PHRASES) && same_pair(1000);
    phrases[at] = kept;
    return same;
}

int same_phrases(const struct set *set)
{
    feldrime_phrase like = phrases[100];

    return same_rows(set, PHRASES) && same_rows(set, 0) && same_pair(1000) && same_pair(0)
        && same_with(set, 700, (feldrime_phrase){ like.language, like.number, like.first, like.length + 1 })
        && same_with(set, 500, (feldrime_phrase){ 1, 1, 16383, 2 }) && same_with(set, 999, (feldrime_phrase){ 1, 1, 5, 0 });
}
