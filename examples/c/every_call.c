/* Every call twice, by its own function and with its buffers in one struct: both must answer and leave the same. This is no example, but
 * the test of the header's inline functions. examples/test.sh compiles it as C and as C++. */
#include <stdio.h>
#include <string.h>

#include "ola.h"

/* Capacities. The sheet takes three lines, and its bytes fill whole words. */
enum { CELLS = 4, TAPE = 9, OUTPUT = 3, SHEET = 3 * OLA_LINE_BYTES + 5 };

/* All that a call is lent, without gaps, so that two can be compared byte for byte. */
typedef struct {
    ola_machine machine;
    ola_marks extras;
    uint64_t addresses[CELLS], numbers[CELLS], moments[CELLS], marks[CELLS], tape[TAPE], output[OUTPUT];
    uint8_t sheet[SHEET];
    ola_answer answer;
} lent;

/* MSTORE of r7, which is marked, to cell r0 + 3; TSTORE of one cell from 20; END. */
static const uint64_t words[] = {0x0010008000008a0a, 3, 0x0000000000000917, 20, 1, 0x000000000000000b};
static const size_t words_length = sizeof words / sizeof words[0];

static const char lines[] = "0000000000000064\n"
                            "0010008000008a0a0000000000000003\n"
                            "000000000000091700000000000000140000000000000001\n"
                            "000000000000000b\n";
static const uint8_t *const job = (const uint8_t *)lines;
static const size_t job_length = sizeof lines - 1;
/* The same without its budget line. */
static const uint8_t *const text = (const uint8_t *)lines + 17;
static const size_t text_length = sizeof lines - 1 - 17;

/* Starts: one that is fit, and others with one buffer each that is not. */
enum { FIT, CELL_COUNT, TAPE_COUNT, OUTPUT_COUNT, ADDRESS, NUMBER, MOMENT, MARK, STARTS };

static lent start_of(int which) {
    lent start = {{{0}, 0, 6, 0xfffffffe00000002u, {0}, 2, 4, 1},
                  {1 << 7},
                  {10, 20, 0, 0},
                  {9, 8, 0, 0},
                  {2, 6, 0, 0},
                  {1, 0, 0, 0},
                  {5, 6, 7, 8, 0, 0, 0, 0, 0},
                  {4, 0, 0},
                  {0},
                  {0, 0, 0, 0, {0}}};
    if (which == CELL_COUNT) start.machine.cell_count = CELLS + 1;
    if (which == TAPE_COUNT) start.machine.tape_count = TAPE + 1;
    if (which == OUTPUT_COUNT) start.machine.output_count = OUTPUT + 1;
    if (which == ADDRESS) start.addresses[1] = 10;
    if (which == NUMBER) start.numbers[1] = UINT64_MAX;
    if (which == MOMENT) start.moments[1] = 7;
    if (which == MARK) start.marks[1] = 2;
    return start;
}

static ola_buffers buffers_of(lent *l) {
    const ola_buffers buffers = {l->addresses, l->numbers, l->moments, l->marks, CELLS,
                                 l->tape,      TAPE,       l->output,  OUTPUT};
    return buffers;
}

static int failed = 0;

static void expect(int holds, const char *function, int which, const char *what) {
    if (!holds) {
        printf("%s, start %d: %s\n", function, which, what);
        failed = 1;
    }
}

static void compare(const char *function, int which, const lent *one, const lent *other) {
    expect(which != FIT || !one->answer.refused, function, which, "refused");
    expect(!memcmp(one, other, sizeof *one), function, which, "with its buffers in one struct it does something else");
}

#define PLAIN(function, ...)                                                                              \
    for (int which = FIT; which < STARTS; which++) {                                                      \
        lent one = start_of(which), other = start_of(which);                                              \
        const ola_buffers buffers = buffers_of(&other);                                                   \
        function(__VA_ARGS__, &one.machine, one.addresses, CELLS, one.numbers, CELLS, one.moments, CELLS, \
                 one.tape, TAPE, one.output, OUTPUT, &one.answer);                                        \
        function##_in(__VA_ARGS__, &other.machine, &buffers, &other.answer);                              \
        compare(#function, which, &one, &other);                                                          \
    }

#define TRACED(function, ...)                                                                             \
    for (int which = FIT; which < STARTS; which++) {                                                      \
        lent one = start_of(which), other = start_of(which);                                              \
        const ola_buffers buffers = buffers_of(&other);                                                   \
        function(__VA_ARGS__, &one.machine, one.addresses, CELLS, one.numbers, CELLS, one.moments, CELLS, \
                 one.tape, TAPE, one.output, OUTPUT, one.sheet, SHEET, &one.answer);                      \
        function##_in(__VA_ARGS__, &other.machine, &buffers, other.sheet, SHEET, &other.answer);          \
        compare(#function, which, &one, &other);                                                          \
    }

#define GUARDED(function, ...)                                                                           \
    for (int which = FIT; which < STARTS; which++) {                                                     \
        lent one = start_of(which), other = start_of(which);                                             \
        const ola_buffers buffers = buffers_of(&other);                                                  \
        function(__VA_ARGS__, &one.machine, &one.extras, one.addresses, CELLS, one.numbers, CELLS,       \
                 one.moments, CELLS, one.marks, CELLS, one.tape, TAPE, one.output, OUTPUT, &one.answer); \
        function##_in(__VA_ARGS__, &other.machine, &other.extras, &buffers, &other.answer);              \
        compare(#function, which, &one, &other);                                                         \
    }

int main(void) {
    PLAIN(ola_run_words, words, words_length, 100)
    PLAIN(ola_run_text, text, text_length, 100)
    PLAIN(ola_run_budget_text, job, job_length)
    PLAIN(ola_step_words, words, words_length)
    PLAIN(ola_check_words, words, words_length)
    PLAIN(ola_check_text, text, text_length)
    PLAIN(ola_check_budget_text, job, job_length)
    TRACED(ola_traced_run_words, words, words_length, 100)
    TRACED(ola_traced_run_text, text, text_length, 100)
    TRACED(ola_traced_run_budget_text, job, job_length)
    GUARDED(ola_guarded_run_words, words, words_length, 100)
    GUARDED(ola_guarded_run_text, text, text_length, 100)
    GUARDED(ola_guarded_run_budget_text, job, job_length)
    GUARDED(ola_guarded_step_words, words, words_length)
    GUARDED(ola_guarded_check_words, words, words_length)
    GUARDED(ola_guarded_check_text, text, text_length)
    GUARDED(ola_guarded_check_budget_text, job, job_length)
    return failed;
}
