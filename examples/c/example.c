/* The step machine from C: a solve in one call, step by step, with a pause, refused, with a secret, and with a sheet, shown as a table.
 * Prints what examples/expected.txt has. */
#include <inttypes.h>
#include <stdio.h>
#include <stdlib.h>
#include <string.h>

#include "ola.h"

/* What every solve below is lent; the machine's counts say how much of it is used. */
static uint64_t addresses[OLA_MOST_CELLS], numbers[OLA_MOST_CELLS], moments[OLA_MOST_CELLS], marks[OLA_MOST_CELLS];
static uint64_t tape[OLA_MOST_VALUES], output[OLA_MOST_VALUES];
static const ola_buffers buffers = {
    .addresses = addresses,
    .numbers = numbers,
    .moments = moments,
    .marks = marks,
    .cell_capacity = OLA_MOST_CELLS,
    .tape = tape,
    .tape_capacity = OLA_MOST_VALUES,
    .output = output,
    .output_capacity = OLA_MOST_VALUES,
};

/* Doubles 5, stores it in cell 3, hands it back. */
static const uint64_t doubling[] = {
    0x0000000200008804, 5,    /* MOV 5 to r1 */
    0x0020080200009200,       /* ADD r1, r1 to r1 */
    0x0010000200008a0a, 3,    /* MSTORE r1 to cell r0 + 3 */
    0x0000000000000917, 3, 1, /* TSTORE of one cell from 3 */
    0x000000000000000b,       /* END */
};
static const size_t doubling_length = sizeof doubling / sizeof doubling[0];

/* Compares a guess in r1 with a key in r2, and jumps where they are equal. */
static const uint64_t guessing[] = {
    0x0020100800009202, /* EQ r1, r2 to r3 */
    0x0080000000000a06, 0, /* CJMP on r3 to 0 */
    0x000000000000000b, /* END */
};
static const size_t guessing_length = sizeof guessing / sizeof guessing[0];

/* Adds up 1 and 2, and hands the sum back. */
static const uint64_t adding_up[] = {
    0x0020000200008a00, 1,    /* ADD r1, 1 to r1 */
    0x0040080400009200,       /* ADD r2, r1 to r2 */
    0x0020000800008a11, 2,    /* NEQ r1, 2 to r3 */
    0x0080000000000a06, 0,    /* CJMP on r3 to 0 */
    0x0010000400008a0a, 3,    /* MSTORE r2 to cell r0 + 3 */
    0x0000000000000917, 3, 1, /* TSTORE of one cell from 3 */
    0x000000000000000b,       /* END */
};
static const size_t adding_up_length = sizeof adding_up / sizeof adding_up[0];

static void print_answer(const char *what, const ola_answer *answer, const ola_machine *machine) {
    printf("%s: %s %" PRIu64 " after %" PRIu64 " steps, pc %" PRIu64 ", clk %" PRIu64 "\n", what,
           answer->refused ? "refused" : "outcome", answer->number, answer->steps, machine->pc, machine->clk);
}

static void in_one_call(void) {
    ola_machine machine = OLA_START;
    ola_answer answer;
    ola_run_words_in(doubling, doubling_length, 100, &machine, &buffers, &answer);
    print_answer("in one call", &answer, &machine);
    for (uint64_t i = 0; i < machine.output_count; i++) {
        printf("output: %" PRIu64 "\n", output[i]);
    }
    for (uint64_t i = 0; i < machine.cell_count; i++) {
        printf("cell %" PRIu64 ": %" PRIu64 ", written at clk %" PRIu64 "\n", addresses[i], numbers[i], moments[i]);
    }
    printf("kilosteps: %" PRIu64 "\n", ola_kilosteps(machine.clk));
}

static void step_by_step(void) {
    ola_machine machine = OLA_START;
    ola_answer answer;
    do {
        ola_step_words_in(doubling, doubling_length, &machine, &buffers, &answer);
        print_answer("step", &answer, &machine);
    } while (!answer.refused && answer.number == OLA_PAUSED);
}

static void with_a_pause(void) {
    ola_machine machine = OLA_START;
    ola_answer answer;
    ola_run_words_in(doubling, doubling_length, 2, &machine, &buffers, &answer);
    print_answer("paused", &answer, &machine);
    ola_run_words_in(doubling, doubling_length, 100, &machine, &buffers, &answer);
    print_answer("gone on", &answer, &machine);
}

static void refused(void) {
    static const char text[] = "000000000000000b\n"
                               "0000\n";
    const ola_machine machine = OLA_START;
    ola_answer answer;
    ola_check_text_in((const uint8_t *)text, strlen(text), &machine, &buffers, &answer);
    print_answer("a short line", &answer, &machine);
    printf("malformed frame: %" PRIu64 "\n", answer.frame);
}

/* The comparison may be made, but no jump may depend on it. */
static void with_a_secret(void) {
    ola_machine machine = OLA_START;
    ola_marks extras = {0};
    ola_answer answer;
    machine.registers[1] = 7;
    machine.registers[2] = 12345;
    extras.registers = 1 << 2;
    ola_guarded_run_words_in(guessing, guessing_length, 100, &machine, &extras, &buffers, &answer);
    print_answer("with a secret", &answer, &machine);
    printf("marked registers: %" PRIx64 "\n", extras.registers);
}

/* The words of a line of the sheet: a column for each but the last, which says which of the last three columns are present. */
enum { FIRST_REGISTER = 2, FIRST_OPERAND = 12, COLUMNS = 15, PRESENT = 15 };
static const char *const names[COLUMNS] = {"clk", "pc", "r0", "r1", "r2",  "r3",  "r4", "r5",
                                           "r6",  "r7", "r8", "r9", "op0", "op1", "dst"};

static uint64_t word_of(const uint8_t *line, int i) {
    char digits[17] = "";
    memcpy(digits, line + 16 * i, 16);
    return strtoull(digits, NULL, 16);
}

/* A number in short hexadecimal; a dash where an operand is absent. */
static int write_number(char text[17], const uint8_t *line, int column) {
    if (column >= FIRST_OPERAND && !(word_of(line, PRESENT) >> (column - FIRST_OPERAND) & 1)) {
        return snprintf(text, 17, "-");
    }
    return snprintf(text, 17, "%" PRIx64, word_of(line, column));
}

/* How wide a column is: as its longest number, or its name. A register that is 0 in all lines has no column: 0. */
static int width_of(const uint8_t *sheet, uint64_t lines, int column) {
    int is_shown = column < FIRST_REGISTER || column >= FIRST_OPERAND;
    int width = (int)strlen(names[column]);
    for (uint64_t i = 0; i < lines; i++) {
        const uint8_t *line = sheet + OLA_LINE_BYTES * i;
        char text[17];
        int length = write_number(text, line, column);
        if (length > width) width = length;
        if (word_of(line, column)) is_shown = 1;
    }
    return is_shown ? width : 0;
}

static void print_at(int column, int width, const char *text) {
    if (width) printf("%s%*s", column ? " " : "", width, text);
}

/* A sheet as a table: the columns' names, then a row for each line. */
static void print_table(const uint8_t *sheet, uint64_t lines) {
    int widths[COLUMNS];
    for (int column = 0; column < COLUMNS; column++) {
        widths[column] = width_of(sheet, lines, column);
        print_at(column, widths[column], names[column]);
    }
    printf("\n");
    for (uint64_t i = 0; i < lines; i++) {
        for (int column = 0; column < COLUMNS; column++) {
            char text[17];
            write_number(text, sheet + OLA_LINE_BYTES * i, column);
            print_at(column, widths[column], text);
        }
        printf("\n");
    }
}

/* A line of the sheet for each step. */
static void with_a_sheet(void) {
    static uint8_t sheet[20 * OLA_LINE_BYTES];
    ola_machine machine = OLA_START;
    ola_answer answer;
    ola_traced_run_words_in(adding_up, adding_up_length, 100, &machine, &buffers, sheet, sizeof sheet, &answer);
    print_answer("with a sheet", &answer, &machine);
    print_table(sheet, answer.steps);
}

int main(void) {
    in_one_call();
    step_by_step();
    with_a_pause();
    refused();
    with_a_secret();
    with_a_sheet();
    return 0;
}
