/* Runs each call on a stack of just the bytes that the header promises for it, below which memory cannot be touched,
   and compares its answers with those on the program's own stack. Prints how many bytes each call used.
   Nothing is added for this program: what calls the library stands in these bytes too, with its return address, the
   arguments and room for the answer, at most 150 bytes. Each call is tried in a process of its own, which ends where
   the stack is overrun. */
#define _GNU_SOURCE
#include <signal.h>
#include <stdbool.h>
#include <stdio.h>
#include <stdlib.h>
#include <string.h>
#include <sys/mman.h>
#include <sys/wait.h>
#include <unistd.h>

#include "feldrime.h"

/* The header counts in what the dynamic linker takes; this program is bound at its start. */
enum { LINKER = 3584, LARGE_STACK = FELDRIME_STACK - LINKER, SMALL_STACK = FELDRIME_STACK_SMALL - LINKER };

_Static_assert(LARGE_STACK % 16 == 0 && SMALL_STACK % 16 == 0, "a stack begins where 16 divides");

enum { SAME = 0, DIFFERENT = 3, OVERRUN = 4, OTHER_FAULT = 5, GUARD = 1 << 20, PHRASES = 300, VARIANTS = 4 };

static void stop(const char *what)
{
    fprintf(stderr, "stack: %s\n", what);
    exit(2);
}

/* ---- what a call is lent ---- */

struct lent {
    feldrime_page page;
    feldrime_font font;
    uint8_t file[FELDRIME_PAGE_FILE], out[FELDRIME_PAGE_FILE];
    uint16_t cells[FELDRIME_CELLS];
    feldrime_phrase phrases[PHRASES];
    feldrime_board board;
    size_t numbers, memory, words, groups, file_count, out_count, cells_count, phrase_count, picture_count;
    uint32_t line, row, clock;
    uint8_t field, address, byte;
};

static struct lent base, made, now, expected;
static uint8_t picture[FELDRIME_PICTURE], expected_picture[FELDRIME_PICTURE];

union answer {
    uint32_t version;
    feldrime_answer answer;
    feldrime_font_answer font;
    feldrime_size size;
    feldrime_run run;
    feldrime_cells cells;
    feldrime_phrase_answer phrase;
    feldrime_differ_answer differ;
    feldrime_board power;
    feldrime_board_answer board;
    feldrime_byte byte;
    feldrime_step_answer step;
};

static union answer got, expected_answer;

/* ---- the calls ---- */

#define NUMBERS now.page.numbers, now.numbers
#define CHARS now.page.chars, now.memory
#define ATTRS now.page.attrs, now.memory
#define FONT now.font.words, now.words, now.font.flags, FELDRIME_FLAGS, now.font.unshifted, FELDRIME_LIST, \
             now.font.shifted, FELDRIME_LIST, now.font.groups, now.groups
#define FILE_BYTES now.file, now.file_count
#define OUT now.out, now.out_count
#define CALL(name, part, ...) \
    static void call_##name(void) \
    { \
        got.part = feldrime_##name(__VA_ARGS__); \
    }

CALL(version, version, )
CALL(page_check, answer, NUMBERS)
CALL(page_size, size, NUMBERS)
CALL(page_read, answer, FILE_BYTES, NUMBERS, CHARS, ATTRS)
CALL(page_write, answer, NUMBERS, CHARS, ATTRS, OUT)
CALL(font_read, font, FILE_BYTES, FONT)
CALL(picture_draw, answer, NUMBERS, CHARS, ATTRS, FONT, now.field, picture, now.picture_count)
CALL(line_draw, answer, NUMBERS, CHARS, ATTRS, FONT, now.line, now.field, OUT)
CALL(row_run, run, NUMBERS, CHARS, now.row)
CALL(row_cells, cells, NUMBERS, CHARS, now.row, now.cells, now.cells_count)
CALL(to_table, answer, NUMBERS, CHARS)
CALL(to_sheet, answer, NUMBERS, CHARS)
CALL(phrase_of_row, phrase, NUMBERS, CHARS, now.phrases, now.phrase_count, now.row)
CALL(phrases_differ, differ, now.phrases, now.phrase_count)
CALL(power, power, )
CALL(board_of, board, NUMBERS)
CALL(numbers_of, answer, now.board, NUMBERS)
CALL(set_video, board, now.board, now.byte, now.address, now.field, now.byte)
CALL(register_write, board, now.board, now.address, now.byte)
CALL(register_read, byte, now.board, now.address)
CALL(state_at, board, now.board, CHARS, ATTRS, now.clock)
CALL(step, step, &now.board, CHARS, ATTRS, FONT)

#define TRY(name, bytes) { "feldrime_" #name, call_##name, bytes }

static const struct call {
    const char *name;
    void (*run)(void);
    size_t bytes; /* of stack */
} calls[] = {
    TRY(version, SMALL_STACK),
    TRY(page_check, SMALL_STACK),
    TRY(page_size, SMALL_STACK),
    TRY(page_read, SMALL_STACK),
    TRY(page_write, SMALL_STACK),
    TRY(font_read, SMALL_STACK),
    TRY(picture_draw, LARGE_STACK),
    TRY(line_draw, SMALL_STACK),
    TRY(row_run, SMALL_STACK),
    TRY(row_cells, SMALL_STACK),
    TRY(to_table, LARGE_STACK),
    TRY(to_sheet, SMALL_STACK),
    TRY(phrase_of_row, SMALL_STACK),
    TRY(phrases_differ, SMALL_STACK),
    TRY(power, SMALL_STACK),
    TRY(board_of, SMALL_STACK),
    TRY(numbers_of, SMALL_STACK),
    TRY(set_video, SMALL_STACK),
    TRY(register_write, SMALL_STACK),
    TRY(register_read, SMALL_STACK),
    TRY(state_at, SMALL_STACK),
    TRY(step, SMALL_STACK),
};

enum { CALLS = sizeof calls / sizeof *calls };

/* Whether the answer has no refusal. */
static bool never_refuses(const struct call *call)
{
    return call->run == call_version || call->run == call_power;
}

/* Makes zeros of the unused bytes between a board's fields. */
static void clean_board(feldrime_board *board)
{
    feldrime_board clean;

    memset(&clean, 0, sizeof clean);
    clean.page.version = board->page.version;
    memcpy(clean.page.irs, board->page.irs, sizeof clean.page.irs);
    clean.page.starts.start1 = board->page.starts.start1;
    clean.page.starts.cursor = board->page.starts.cursor;
    clean.page.starts.start2 = board->page.starts.start2;
    clean.page.switches = board->page.switches;
    clean.page.video.dots = board->page.video.dots;
    clean.page.video.strike = board->page.video.strike;
    clean.page.video.chip = board->page.video.chip;
    clean.place.field = board->place.field;
    clean.place.line = board->place.line;
    clean.place.clock = board->place.clock;
    clean.place.beam.address = board->place.beam.address;
    clean.place.beam.latch = board->place.beam.latch;
    clean.place.row.address = board->place.row.address;
    clean.place.row.latch = board->place.row.latch;
    clean.place.row.code = board->place.row.code;
    clean.pointer = board->pointer;
    clean.resets = board->resets;
    memcpy(board, &clean, sizeof clean);
}

/* The same for the answer that the call gave. */
static void clean_answer(void (*run)(void))
{
    union answer clean;

    memset(&clean, 0, sizeof clean);
    if (run == call_power) {
        clean_board(&got.power);
    } else if (run == call_board_of || run == call_set_video || run == call_register_write || run == call_state_at) {
        clean_board(&got.board.board);
    } else if (run == call_phrase_of_row) {
        clean.phrase.refusal = got.phrase.refusal;
        clean.phrase.beside = got.phrase.beside;
        clean.phrase.found = got.phrase.found;
        clean.phrase.position = got.phrase.position;
        memcpy(&got, &clean, sizeof got);
    } else if (run == call_phrases_differ) {
        clean.differ.refusal = got.differ.refusal;
        clean.differ.beside = got.differ.beside;
        clean.differ.found = got.differ.found;
        clean.differ.earlier = got.differ.earlier;
        clean.differ.later = got.differ.later;
        memcpy(&got, &clean, sizeof got);
    }
}

/* ---- inputs ---- */

static uint32_t dice = 2463534242u;

static uint32_t throw(void)
{
    dice ^= dice << 13;
    dice ^= dice >> 17;
    dice ^= dice << 5;
    return dice;
}

static void fill(void *bytes, size_t count)
{
    for (size_t i = 0; i < count; i++)
        ((uint8_t *)bytes)[i] = (uint8_t)(throw() >> 24);
}

enum { SHEET, TABLE, CODES, KINDS, MODES = 5 };

/* The numbers of a page; mode is version 1, version 2 in character mode, field mode with ACD off, and with ACD on, and version 3
   of chip B in field mode with ACD on. */
static void make_numbers(int kind, int mode, int dots, int rows, int columns, int lines)
{
    static const uint8_t versions[MODES] = { 1, 2, 2, 2, 3 }, switches[MODES] = { 0x03, 0x0f, 0x17, 0x33, 0x33 };
    uint8_t *numbers = made.page.numbers;

    memset(numbers, 0, FELDRIME_NUMBERS);
    numbers[0] = versions[mode];
    numbers[1] = (uint8_t)((kind == CODES ? 0x80 : 0) | (lines - 1) << 3);
    numbers[2] = 127; /* with HSYNC 32 a line of 384 clocks */
    numbers[3] = (uint8_t)((kind == SHEET ? 0 : 0x80) | 15 << 3 | 1);
    numbers[4] = 0xff;
    numbers[5] = (uint8_t)(rows - 1);
    numbers[6] = (uint8_t)(columns - 1);
    numbers[7] = 0x1d;
    numbers[8] = 0x2e;
    numbers[9] = 0x23;
    numbers[10] = 0xe1; /* buffer addresses from 123 to 3bff hex */
    numbers[16] = 0x12;
    numbers[17] = 0x34;
    numbers[18] = 0x13;
    numbers[20] = 0x3f;
    numbers[21] = 0xff;
    numbers[22] = switches[mode];
    numbers[23] = (uint8_t)dots;
    numbers[24] = 7;
    numbers[25] = versions[mode] == 3;
}

static void make_movable(int which)
{
    /* a sheet of many rows, a sheet of one, a page with a table whose rows are apart, and one whose rows follow */
    make_numbers(which < 2 ? SHEET : TABLE, 3, 12, which == 1 ? 1 : 60, 250, 16);
    made.page.numbers[9] = 0;
    made.page.numbers[10] = 0xf0; /* no buffer address is left out */
    if (which == 3)
        for (unsigned row = 0; row < 60; row++) {
            made.page.chars[(FELDRIME_MEMORY - 1 + 2 * row) % FELDRIME_MEMORY] = (uint8_t)(250 * row);
            made.page.chars[(FELDRIME_MEMORY + 2 * row) % FELDRIME_MEMORY] = (uint8_t)(250 * row >> 8);
        }
}

/* A byte of the numbers that makes the page refused, and by which number. */
static const struct {
    uint8_t place, byte, refusal;
} spoiled[] = {
    { 0, 0, 3 }, { 16, 0x40, 12 }, { 24, 16, 12 }, { 25, 2, 12 }, { 2, 0xff, 4 }, { 3, 0xf8, 13 },
    { 2, 60, 14 }, { 2, 81, 15 }, { 23, 5, 6 }, { 23, 13, 6 },
};

enum {
    LARGE = KINDS * MODES * 7,     /* inputs of long rows, of 6 to 12 dots; those of 12 are as large as can be */
    SMALL = LARGE + KINDS * MODES, /* those up to here are of one cell */
    MOVABLE = SMALL + 4,
    SPOILED = MOVABLE + sizeof spoiled / sizeof *spoiled,
    INPUTS = SPOILED + 11 /* with a wrong count, group, record or place */
};

static void make_page(int input)
{
    int kind = input % KINDS, mode = input / KINDS % MODES, dots = 6 + input / KINDS / MODES;

    if (input < LARGE)
        make_numbers(kind, mode, dots, dots == 12 ? 128 : 20, 256 - dots % 2, 16);
    else if (input < SMALL)
        make_numbers(kind, mode, 12, 1, 1, 1);
    else if (input < MOVABLE)
        make_movable(input - SMALL);
    else
        make_numbers(CODES, 4, 12, 128, 256, 16);
}

static void spoil_page(int which)
{
    made.page.numbers[spoiled[which].place] = spoiled[which].byte;
    memcpy(made.board.page.irs, made.page.numbers + 1, sizeof made.board.page.irs);
    made.board.page.starts.start1 = (uint16_t)(made.page.numbers[16] << 8);
    made.board.page.video.dots = made.page.numbers[23];
    made.board.page.video.strike = made.page.numbers[24];
    made.board.page.video.chip = made.page.numbers[25];
    if (feldrime_page_check(made.page.numbers, FELDRIME_NUMBERS).refusal != spoiled[which].refusal)
        stop("a spoiled page is not refused as it should be");
}

static void spoil_other(int which)
{
    switch (which) {
    case 0: made.numbers--; break;
    case 1: made.memory--; break;
    case 2: made.words--; break;
    case 3: made.file_count--; break;
    case 4: made.out_count = 11; break;
    case 5: made.cells_count--; break;
    case 6: made.picture_count = 11; break;
    case 7: made.phrases[PHRASES / 2].length = 0; break;
    case 8: made.groups--; break;
    case 9: made.font.groups[15] = made.file[FELDRIME_FONT_FILE - 1] = 5; break;
    default:
        made.file_count = 0;
        made.phrase_count = 0;
        made.board.pointer = 15;
        made.board.place.line = 1 << 20;
    }
}

static void make_list(void)
{
    for (int i = 0; i < PHRASES; i++) {
        uint32_t first = throw() % FELDRIME_MEMORY, length = 1 + throw() % (FELDRIME_MEMORY - first);
        base.phrases[i] = (feldrime_phrase){ throw() % 5, throw() % 9000, first, length };
    }
    base.phrases[PHRASES - 1] = (feldrime_phrase){ 1, 1, 0, FELDRIME_MEMORY }; /* which holds every row */
}

/* What all inputs begin with. */
static void make_base(void)
{
    fill(&base.page, sizeof base.page);
    fill(&base.font, sizeof base.font);
    fill(base.file, sizeof base.file);
    for (int i = 0; i < FELDRIME_GROUPS; i++)
        base.font.groups[i] = (uint8_t)(i % 5);
    fill(base.out, sizeof base.out);
    make_list();
    base.numbers = FELDRIME_NUMBERS;
    base.memory = FELDRIME_MEMORY;
    base.words = FELDRIME_WORDS;
    base.groups = FELDRIME_GROUPS;
    base.out_count = sizeof base.out;
    base.cells_count = FELDRIME_CELLS;
    base.phrase_count = PHRASES;
    base.picture_count = sizeof picture;
}

/* A file of so many bytes begins with its version and how many bytes follow. */
static void make_head(uint8_t version, size_t count)
{
    made.file_count = count;
    made.file[0] = version;
    made.file[1] = made.file[2] = 0;
    made.file[3] = (uint8_t)((count - 5) >> 8);
    made.file[4] = (uint8_t)(count - 5);
}

static void make_page_file(void)
{
    uint8_t version = made.page.numbers[0];

    make_head(version, feldrime_page_bytes(version == 0 ? 1 : version));
    memcpy(made.file + 5, made.page.numbers + 1, version == 3 ? 25 : 24);
}

static void make_font_file(uint8_t version)
{
    make_head(version, feldrime_font_bytes(version));
    memcpy(made.file + feldrime_font_bytes(1), made.font.groups, FELDRIME_GROUPS);
}

static void make(int input)
{
    memcpy(&made, &base, sizeof made);
    make_page(input);
    made.board = feldrime_board_of(made.page.numbers, made.numbers).board;
    if (input >= MOVABLE && input < SPOILED)
        spoil_page(input - MOVABLE);
    if (input % 2 == 0)
        make_page_file();
    else
        make_font_file(input % 4 == 1 ? 2 : 1);
    if (input >= SPOILED)
        spoil_other(input - SPOILED);
}

/* The input, with one of some places, fields and registers. */
static void prepare(int variant)
{
    static const uint32_t lines[VARIANTS] = { 0, 319, 2047, 2048 }, rows[VARIANTS] = { 0, 19, 127, 128 };
    static const uint32_t clocks[VARIANTS] = { 0, 384 * 2048u - 130, 384 * 777u + 255, 0xffffffff };
    static const uint8_t addresses[VARIANTS] = { 0, 1, 7, 8 }, bytes[VARIANTS] = { 12, 0, 9, 0xff };

    memcpy(&now, &made, sizeof now);
    memset(&got, 0, sizeof got);
    now.line = lines[variant];
    now.row = rows[variant];
    now.clock = clocks[variant];
    now.field = (uint8_t)(48 * variant);
    now.address = addresses[variant];
    now.byte = bytes[variant];
    now.board = feldrime_state_at(made.board, made.page.chars, FELDRIME_MEMORY, made.page.attrs, FELDRIME_MEMORY,
                                  now.clock).board;
}

/* ---- the small stack ---- */

static struct {
    int input, variant;
    size_t used;
    unsigned done, refused;
} *shared;

static uint8_t *guard, *bottom;

static void on_fault(int number, siginfo_t *info, void *context)
{
    uint8_t *place = info->si_addr;

    (void)number;
    (void)context;
    _exit(place >= guard && place < bottom ? OVERRUN : OTHER_FAULT);
}

/* Room for the largest stack above a guard; a fault is handled on a third stack. */
static void make_stack(void)
{
    static uint8_t aside[1 << 16];
    stack_t other = { .ss_sp = aside, .ss_size = sizeof aside };
    struct sigaction action = { .sa_sigaction = on_fault, .sa_flags = SA_SIGINFO | SA_ONSTACK };
    size_t room = GUARD + LARGE_STACK + GUARD;

    guard = mmap(NULL, room, PROT_READ | PROT_WRITE, MAP_PRIVATE | MAP_ANONYMOUS, -1, 0);
    if (guard == MAP_FAILED || mprotect(guard, GUARD, PROT_NONE) != 0)
        stop("no memory for a stack");
    bottom = guard + GUARD;
    if (sigaltstack(&other, NULL) != 0 || sigaction(SIGSEGV, &action, NULL) != 0)
        stop("a fault cannot be handled");
}

/* Runs it with so many bytes of stack, of which its return address is the first. */
__attribute__((noinline)) static void run_on(size_t bytes, void (*run)(void))
{
    register uint8_t *top __asm__("r12") = bottom + bytes;
    register void (*start)(void) __asm__("r13") = run;

    __asm__ volatile("movq %%rsp, %%rbx\n\t"
                     "movq %0, %%rsp\n\t"
                     "call *%1\n\t"
                     "movq %%rbx, %%rsp"
                     : "+r"(top), "+r"(start)
                     :
                     : "rax", "rbx", "rcx", "rdx", "rsi", "rdi", "r8", "r9", "r10", "r11", "xmm0", "xmm1", "xmm2",
                       "xmm3", "xmm4", "xmm5", "xmm6", "xmm7", "xmm8", "xmm9", "xmm10", "xmm11", "xmm12", "xmm13",
                       "xmm14", "xmm15", "memory", "cc");
}

static uint8_t paint(size_t place)
{
    return (uint8_t)(0x5b + 37 * place + (place >> 8));
}

/* The bytes from the top down to the lowest that is no longer painted. */
static size_t used_of(size_t bytes)
{
    size_t untouched = 0;

    while (untouched < bytes && bottom[untouched] == paint(untouched))
        untouched++;
    return bytes - untouched;
}

/* How much of the picture a call is compared by: its dots and some bytes behind them. */
static size_t picture_bytes(const struct call *call)
{
    feldrime_size size = feldrime_page_size(made.page.numbers, FELDRIME_NUMBERS);
    size_t bytes = (size_t)size.lines * size.dots + 4096;

    return call->run != call_picture_draw ? 0 : bytes < sizeof picture ? bytes : sizeof picture;
}

static bool same(const struct call *call)
{
    clean_answer(call->run);
    clean_board(&now.board);
    return memcmp(&got, &expected_answer, sizeof got) == 0 && memcmp(&now, &expected, sizeof now) == 0
           && memcmp(picture, expected_picture, picture_bytes(call)) == 0;
}

static void expect(const struct call *call, int variant)
{
    memset(picture, 0xa5, picture_bytes(call));
    prepare(variant);
    call->run();
    clean_answer(call->run);
    clean_board(&now.board);
    memcpy(&expected_answer, &got, sizeof got);
    memcpy(&expected, &now, sizeof now);
    memcpy(expected_picture, picture, picture_bytes(call));
    memset(picture, 0xa5, picture_bytes(call));
}

static bool try_once(const struct call *call, size_t bytes, int variant)
{
    size_t used;

    expect(call, variant);
    prepare(variant);
    for (size_t i = 0; i < bytes; i++)
        bottom[i] = paint(i);
    run_on(bytes, call->run);
    used = used_of(bytes);
    if (used > shared->used)
        shared->used = used;
    *(never_refuses(call) || got.answer.refusal == 0 ? &shared->done : &shared->refused) += 1;
    return same(call);
}

/* The picture takes longest, and has one variant of each input. */
static int try_inputs(const struct call *call, size_t bytes)
{
    for (int input = 0; input < INPUTS; input++) {
        shared->input = input;
        make(input);
        for (int variant = 0; variant < VARIANTS; variant++) {
            shared->variant = variant;
            if ((call->run != call_picture_draw || variant == input % VARIANTS) && !try_once(call, bytes, variant))
                return DIFFERENT;
        }
    }
    return SAME;
}

/* How a process that tries all inputs ended. */
static int try_call(const struct call *call, size_t bytes)
{
    int status;
    pid_t child;

    memset(shared, 0, sizeof *shared);
    fflush(stdout);
    child = fork();
    if (child < 0)
        stop("no process");
    if (child == 0) {
        make_stack();
        _exit(try_inputs(call, bytes));
    }
    if (waitpid(child, &status, 0) != child)
        stop("a process was lost");
    return WIFEXITED(status) ? WEXITSTATUS(status) : OTHER_FAULT;
}

/* ---- whether an overrun is seen ---- */

/* With its return address the first uses 4096 bytes to the byte, the second one more. */
__attribute__((naked)) static void uses_all(void)
{
    __asm__("movb $0, -4088(%rsp)\n\tret");
}

__attribute__((naked)) static void uses_more(void)
{
    __asm__("movb $0, -4089(%rsp)\n\tret");
}

static bool fails(const char *what, int status, int wanted)
{
    if (status != wanted)
        printf("stack: tried in vain: %s ended with %d, not %d\n", what, status, wanted);
    return status != wanted;
}

/* Those two, and the large calls on a quarter of their stack. */
static bool overruns_pass(void)
{
    const struct call all = { "", uses_all, 0 }, more = { "", uses_more, 0 };
    bool failed = fails("what uses all of a stack", try_call(&all, 4096), SAME);

    failed = fails("what uses a byte too many", try_call(&more, 4096), OVERRUN) || failed;
    for (int i = 0; i < CALLS; i++)
        if (calls[i].bytes > SMALL_STACK)
            failed = fails(calls[i].name, try_call(&calls[i], calls[i].bytes / 64 * 16), OVERRUN) || failed;
    return failed;
}

static bool stays_within(const struct call *call)
{
    int status = try_call(call, call->bytes);

    if (status != SAME) {
        printf("stack: %s, with %zu bytes of stack, %s (input %d, variant %d)\n", call->name, call->bytes,
               status == DIFFERENT ? "answers otherwise than with more" : status == OVERRUN ? "overruns it" : "fails",
               shared->input, shared->variant);
        return false;
    }
    printf("%-24s used %5zu of %5zu bytes, in %3u calls done and %3u refused\n", call->name, shared->used,
           call->bytes, shared->done, shared->refused);
    if (shared->done != 0 && (shared->refused != 0 || never_refuses(call)))
        return true;
    printf("stack: %s was never done, or never refused\n", call->name);
    return false;
}

int main(void)
{
    bool failed;

    shared = mmap(NULL, sizeof *shared, PROT_READ | PROT_WRITE, MAP_SHARED | MAP_ANONYMOUS, -1, 0);
    if (shared == MAP_FAILED)
        stop("no memory");
    make_base();
    failed = overruns_pass();
    for (int i = 0; i < CALLS; i++)
        failed = !stays_within(&calls[i]) || failed;
    return failed;
}
