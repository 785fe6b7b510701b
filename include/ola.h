/* The Ola step machine, proved: its interface for C and for whatever can call C.
 *
 * Link with libola.a, for x86-64, which `rt lib` in crates/ola writes to crates/ola/out. The library allocates nothing, keeps nothing between
 * calls, reads and writes nothing but what it is lent, and uses at most 56 KB of stack, 40 KB where a program is given as words; a traced
 * run uses at most 168 KB, 152 KB from words. Calls on different records and buffers may run at the same time.
 *
 *     cc -Iinclude solve.c crates/ola/out/libola.a
 *
 * The machine has ten registers, a memory, a tape and an output. A call runs a program for at most `budget` steps: it checks all that it is
 * handed, runs, writes what is left into the same places, and fills in an answer. What a paused call leaves can be handed in again and goes
 * on. The plain run executes a program. The guarded run also keeps marks on numbers that must stay secret, and stops where a marked number
 * would be used at a sink, that is where it would decide something that can be seen. The traced run is a plain run that also writes a step
 * sheet, a line of text for each step. conformance/RULES.md says what each instruction does, in which order things are refused, which uses
 * are sinks, and what stands in a line of the sheet.
 *
 * Example: a program as text, with its budget in the first line.
 *
 *     const char *text = "0000000000000064\n"                  // at most 100 steps
 *                        "00000002000088040000000000000005\n"  // r1 = 5
 *                        "000000000000000b\n";                 // END
 *     static uint64_t addresses[OLA_MOST_CELLS], numbers[OLA_MOST_CELLS], moments[OLA_MOST_CELLS];
 *     static uint64_t tape[OLA_MOST_VALUES], output[OLA_MOST_VALUES];
 *     const ola_buffers buffers = {addresses, numbers, moments, NULL, OLA_MOST_CELLS, tape, OLA_MOST_VALUES, output, OLA_MOST_VALUES};
 *     ola_machine machine = OLA_START;
 *     ola_answer answer;
 *     ola_run_budget_text_in((const uint8_t *)text, strlen(text), &machine, &buffers, &answer);
 *     // answer: not refused, number OLA_ENDED, 2 steps; machine.registers[1] is 5, machine.clk is 2
 *
 * Whatever is handed in, a call answers; there is no undefined case but these, which no function can look at:
 * - a pointer is the address of as many elements as the length or capacity behind it says, and is not null, not even where that is 0;
 * - nothing that a call may write overlaps anything else that is lent to it.
 */
#ifndef OLA_H
#define OLA_H

#include <stddef.h>
#include <stdint.h>

#ifdef __cplusplus
extern "C" {
#endif

/* The version of the records below, and of the rules and the format in conformance/: one number, which conformance/VERSION has too. It
 * rises whenever a record, a rule or the format changes. */
#define OLA_VERSION 6

/* Limits. More is refused: OLA_BAD_LENGTH for a program, OLA_BAD_STATE for a state. */
#define OLA_MOST_FRAMES 512          /* instructions of a program */
#define OLA_MOST_BYTES 65536         /* of a program as text, with its budget line */
#define OLA_MOST_CELLS 2048          /* capacity of addresses, numbers, moments and marks */
#define OLA_MOST_VALUES 4096         /* capacity of the tape, and of the output */
#define OLA_CLOCK_END 1000000000000u /* clk is below it where a run starts */

/* The machine: 20 words of 64 bits, in this order. A run or a step reads and writes all of it; a check only reads it. */
typedef struct {
    uint64_t registers[10];
    uint64_t pc;              /* where the next instruction starts */
    uint64_t clk;             /* steps done so far; kilosteps are made from it */
    uint64_t psp;             /* what the operand PSP gives; never changed */
    uint64_t storage_addr[4]; /* the contract that runs, which calls others; never changed */
    uint64_t cell_count;      /* how much of addresses, numbers, moments and marks is used */
    uint64_t tape_count;      /* how much of the tape is used */
    uint64_t output_count;    /* how much of the output is used: what a program that ended hands back */
} ola_machine;

/* Where `solve` starts: everything zero and empty, the PSP of a new memory. */
#define OLA_START {{0}, 0, 0, 0xfffffffe00000002u, {0}, 0, 0, 0}

/* The extras of a guarded call, which it is handed beside the machine: 1 word of 64 bits. A run or a step reads and writes it; a check only
 * reads it. Later versions add fields: start from {0} and set fields by their names. */
typedef struct {
    uint64_t registers; /* bit r is set where register r is marked */
} ola_marks;

/* The answer: 8 words of 64 bits, in this order. What an answer does not have is 0. */
typedef struct {
    uint64_t refused;   /* 0: `number` is an outcome; 1: it is a refusal */
    uint64_t number;    /* one of those below */
    uint64_t steps;     /* steps done in this call */
    uint64_t frame;     /* of OLA_MALFORMED_FRAME: the earliest malformed one, from 1; 0 is the budget line */
    uint64_t callee[4]; /* of OLA_CALLING and OLA_DELEGATE_CALLING: whom */
} ola_answer;

/* Outcomes. */
enum {
    OLA_ENDED = 0,            /* the last step was END */
    OLA_CALLING = 1,          /* the last step was SCCALL */
    OLA_DELEGATE_CALLING = 2, /* the same with op1 = 1 */
    OLA_PAUSED = 3            /* as many steps as the budget were done; call again to go on */
};

/* Refusals. The first three are found before any step, and such a call leaves everything as it was. A refused step leaves everything as the
 * step before it left it, and is not counted; only the step of OLA_CLOCK_END_REACHED stands and is counted. */
enum {
    OLA_BAD_LENGTH = 1,        /* no frame, more than 512, or more than 65,536 bytes of text */
    OLA_MALFORMED_FRAME = 2,   /* a frame or line is malformed; `frame` is the earliest that is */
    OLA_BAD_STATE = 3,         /* clk, a count, a capacity, an address, a number, a moment or a mark is not fit */
    OLA_NO_INSTRUCTION = 4,    /* none starts at pc */
    OLA_UNCOVERED_OPCODE = 5,  /* POSEIDON, SLOAD, SSTORE, SIGCHECK, EVENT */
    OLA_BAD_OPERAND = 6,       /* absent, PC, or not of the form that the opcode wants */
    OLA_NOT_IN_FIELD = 7,      /* a number that is calculated with is not below p */
    OLA_NOT_SMALL = 8,         /* AND, OR, XOR, GTE from 0xffffffff on; CJMP on neither 0 nor 1 */
    OLA_ASSERT_FAILED = 9,     /* ASSERT of something else than 1 */
    OLA_RANGE_CHECK_FAILED = 10, /* RC above 0xffffffff */
    OLA_CELL_ABSENT = 11,      /* a cell that is read is not there */
    OLA_SPAN_PAST_REGION = 12, /* a span that is read reaches its region's end */
    OLA_TAPE_FAULT = 13,       /* TLOAD of what the tape does not have */
    OLA_STORE_FAULT = 14,      /* a number above p, or an address from p on, is stored */
    OLA_PROPHET_STORE = 15,    /* a store into the prophet region */
    OLA_NO_CAPACITY = 16,      /* the cells, the tape or the output are full */
    OLA_CLOCK_END_REACHED = 17, /* clk came to 10^12 */
    OLA_MARKED_SINK = 18,      /* guarded runs only: a marked number would be used at a sink */
    OLA_SHORT_BUFFER = 19      /* traced runs only: the sheet is too short for the step's line */
};

/* What all calls below are handed.
 *
 * A program comes in one of three forms:
 * - words: its frames as words;
 * - text: a line for each frame, 16 hexadecimal digits for each word, each line with its line feed;
 * - budget_text: the same after a line of 16 digits, the budget, in the place of the parameter.
 * The buffers, each with its capacity in elements; their first elements are the used ones, as many as the machine's counts say:
 * - addresses and numbers, of equal capacity: the present cells, in rising order of their addresses;
 * - moments, of the same capacity: when the cell at the same place got its number, that is clk before the step that last wrote it, even
 *   where the number stayed the same. Cells that are handed in bring theirs, for example 0; a moment above clk is refused OLA_BAD_STATE;
 * - marks, of the same capacity, in guarded calls only: 1 where the cell at the same place is marked, else 0;
 * - tape, output.
 *
 * Most callers keep the buffers together, in an ola_buffers: the functions whose names end in `_in`, at the end of this file, take one.
 */

/* The plain run. */
void ola_run_words(const uint64_t *words, size_t words_length, uint64_t budget, ola_machine *machine,
                   uint64_t *addresses, size_t addresses_capacity, uint64_t *numbers, size_t numbers_capacity,
                   uint64_t *moments, size_t moments_capacity, uint64_t *tape, size_t tape_capacity,
                   uint64_t *output, size_t output_capacity, ola_answer *answer);

void ola_run_text(const uint8_t *text, size_t text_length, uint64_t budget, ola_machine *machine,
                  uint64_t *addresses, size_t addresses_capacity, uint64_t *numbers, size_t numbers_capacity,
                  uint64_t *moments, size_t moments_capacity, uint64_t *tape, size_t tape_capacity,
                  uint64_t *output, size_t output_capacity, ola_answer *answer);

void ola_run_budget_text(const uint8_t *text, size_t text_length, ola_machine *machine,
                         uint64_t *addresses, size_t addresses_capacity, uint64_t *numbers, size_t numbers_capacity,
                         uint64_t *moments, size_t moments_capacity, uint64_t *tape, size_t tape_capacity,
                         uint64_t *output, size_t output_capacity, ola_answer *answer);

/* The guarded run: the plain run, which also keeps the marks, and stops where a marked number would be used at a sink. */
void ola_guarded_run_words(const uint64_t *words, size_t words_length, uint64_t budget, ola_machine *machine,
                           ola_marks *extras, uint64_t *addresses, size_t addresses_capacity,
                           uint64_t *numbers, size_t numbers_capacity, uint64_t *moments, size_t moments_capacity,
                           uint64_t *marks, size_t marks_capacity, uint64_t *tape, size_t tape_capacity,
                           uint64_t *output, size_t output_capacity, ola_answer *answer);

void ola_guarded_run_text(const uint8_t *text, size_t text_length, uint64_t budget, ola_machine *machine,
                          ola_marks *extras, uint64_t *addresses, size_t addresses_capacity,
                          uint64_t *numbers, size_t numbers_capacity, uint64_t *moments, size_t moments_capacity,
                          uint64_t *marks, size_t marks_capacity, uint64_t *tape, size_t tape_capacity,
                          uint64_t *output, size_t output_capacity, ola_answer *answer);

void ola_guarded_run_budget_text(const uint8_t *text, size_t text_length, ola_machine *machine, ola_marks *extras,
                                 uint64_t *addresses, size_t addresses_capacity,
                                 uint64_t *numbers, size_t numbers_capacity, uint64_t *moments, size_t moments_capacity,
                                 uint64_t *marks, size_t marks_capacity, uint64_t *tape, size_t tape_capacity,
                                 uint64_t *output, size_t output_capacity, ola_answer *answer);

/* The traced run: the plain run, which also writes a sheet, from its start at every call. `sheet_capacity` is in bytes and has no limit.
 * Each accepted step writes a line of OLA_LINE_BYTES bytes, that of OLA_CLOCK_END_REACHED too: after a call the sheet's first
 * OLA_LINE_BYTES * answer.steps bytes are the lines, and what stands behind them is as it was; no NUL is added.
 *
 * A line is 16 words in the form of a frame's text: 16 lower-case hexadecimal digits for each word, then a line feed. The words are clk, pc
 * and r0 to r9 before the step; op0 and op1 as the step read them, and dst, which is the result, the number loaded or the number stored;
 * and a word whose bits 0, 1 and 2 say which of these three are present. One that is not present is 0. The table in conformance/RULES.md
 * says which those are for each opcode.
 *
 * Only two things differ from the plain run:
 * - a step that nothing else refuses is refused OLA_SHORT_BUFFER where fewer than OLA_LINE_BYTES bytes are left for its line; what that
 *   leaves can be handed in again, and the call fills the sheet from its start;
 * - CALL also reads cell R9 - 2, and is refused OLA_CELL_ABSENT where that cell is not there or R9 is below 2.
 *
 * The entry check of a traced run is that of the plain run. */
#define OLA_LINE_BYTES 257

void ola_traced_run_words(const uint64_t *words, size_t words_length, uint64_t budget, ola_machine *machine,
                          uint64_t *addresses, size_t addresses_capacity, uint64_t *numbers, size_t numbers_capacity,
                          uint64_t *moments, size_t moments_capacity, uint64_t *tape, size_t tape_capacity,
                          uint64_t *output, size_t output_capacity, uint8_t *sheet, size_t sheet_capacity,
                          ola_answer *answer);

void ola_traced_run_text(const uint8_t *text, size_t text_length, uint64_t budget, ola_machine *machine,
                         uint64_t *addresses, size_t addresses_capacity, uint64_t *numbers, size_t numbers_capacity,
                         uint64_t *moments, size_t moments_capacity, uint64_t *tape, size_t tape_capacity,
                         uint64_t *output, size_t output_capacity, uint8_t *sheet, size_t sheet_capacity,
                         ola_answer *answer);

void ola_traced_run_budget_text(const uint8_t *text, size_t text_length, ola_machine *machine,
                                uint64_t *addresses, size_t addresses_capacity,
                                uint64_t *numbers, size_t numbers_capacity, uint64_t *moments, size_t moments_capacity,
                                uint64_t *tape, size_t tape_capacity, uint64_t *output, size_t output_capacity,
                                uint8_t *sheet, size_t sheet_capacity, ola_answer *answer);

/* One step: a run with a budget of 1. */
void ola_step_words(const uint64_t *words, size_t words_length, ola_machine *machine,
                    uint64_t *addresses, size_t addresses_capacity, uint64_t *numbers, size_t numbers_capacity,
                    uint64_t *moments, size_t moments_capacity, uint64_t *tape, size_t tape_capacity,
                    uint64_t *output, size_t output_capacity, ola_answer *answer);

void ola_guarded_step_words(const uint64_t *words, size_t words_length, ola_machine *machine, ola_marks *extras,
                            uint64_t *addresses, size_t addresses_capacity, uint64_t *numbers, size_t numbers_capacity,
                            uint64_t *moments, size_t moments_capacity, uint64_t *marks, size_t marks_capacity,
                            uint64_t *tape, size_t tape_capacity, uint64_t *output, size_t output_capacity,
                            ola_answer *answer);

/* The entry check alone: what a run would be refused with before its first step (1, 2 or 3), or OLA_PAUSED after 0 steps where it would
 * begin. Nothing but the answer is written. */
void ola_check_words(const uint64_t *words, size_t words_length, const ola_machine *machine,
                     const uint64_t *addresses, size_t addresses_capacity,
                     const uint64_t *numbers, size_t numbers_capacity, const uint64_t *moments, size_t moments_capacity,
                     const uint64_t *tape, size_t tape_capacity, const uint64_t *output, size_t output_capacity,
                     ola_answer *answer);

void ola_check_text(const uint8_t *text, size_t text_length, const ola_machine *machine,
                    const uint64_t *addresses, size_t addresses_capacity,
                    const uint64_t *numbers, size_t numbers_capacity, const uint64_t *moments, size_t moments_capacity,
                    const uint64_t *tape, size_t tape_capacity, const uint64_t *output, size_t output_capacity,
                    ola_answer *answer);

void ola_check_budget_text(const uint8_t *text, size_t text_length, const ola_machine *machine,
                           const uint64_t *addresses, size_t addresses_capacity,
                           const uint64_t *numbers, size_t numbers_capacity,
                           const uint64_t *moments, size_t moments_capacity, const uint64_t *tape, size_t tape_capacity,
                           const uint64_t *output, size_t output_capacity, ola_answer *answer);

void ola_guarded_check_words(const uint64_t *words, size_t words_length, const ola_machine *machine,
                             const ola_marks *extras, const uint64_t *addresses, size_t addresses_capacity,
                             const uint64_t *numbers, size_t numbers_capacity,
                             const uint64_t *moments, size_t moments_capacity,
                             const uint64_t *marks, size_t marks_capacity, const uint64_t *tape, size_t tape_capacity,
                             const uint64_t *output, size_t output_capacity, ola_answer *answer);

void ola_guarded_check_text(const uint8_t *text, size_t text_length, const ola_machine *machine,
                            const ola_marks *extras, const uint64_t *addresses, size_t addresses_capacity,
                            const uint64_t *numbers, size_t numbers_capacity,
                            const uint64_t *moments, size_t moments_capacity,
                            const uint64_t *marks, size_t marks_capacity, const uint64_t *tape, size_t tape_capacity,
                            const uint64_t *output, size_t output_capacity, ola_answer *answer);

void ola_guarded_check_budget_text(const uint8_t *text, size_t text_length, const ola_machine *machine,
                                   const ola_marks *extras, const uint64_t *addresses, size_t addresses_capacity,
                                   const uint64_t *numbers, size_t numbers_capacity,
                                   const uint64_t *moments, size_t moments_capacity,
                                   const uint64_t *marks, size_t marks_capacity,
                                   const uint64_t *tape, size_t tape_capacity,
                                   const uint64_t *output, size_t output_capacity, ola_answer *answer);

/* The league's unit: clk / 1000, to the nearest, half to even, for every clk. 499 and 500 give 0, 1500 and 2500 give 2, 2501 gives 3. */
uint64_t ola_kilosteps(uint64_t clk);

/* The buffers of a call in one struct, which is only read; a call writes what its pointers lead to. */
typedef struct {
    uint64_t *addresses;
    uint64_t *numbers;
    uint64_t *moments;
    uint64_t *marks;      /* for guarded calls; other calls do not look at it, and it may be null */
    size_t cell_capacity; /* of addresses, of numbers, of moments and of marks */
    uint64_t *tape;
    size_t tape_capacity;
    uint64_t *output;
    size_t output_capacity;
} ola_buffers;

/* The same calls, with the buffers in one struct; the sheet of a traced run is a parameter of its own. */

static inline void ola_run_words_in(const uint64_t *words, size_t words_length, uint64_t budget, ola_machine *machine,
                                    const ola_buffers *buffers, ola_answer *answer) {
    ola_run_words(words, words_length, budget, machine, buffers->addresses, buffers->cell_capacity,
                  buffers->numbers, buffers->cell_capacity, buffers->moments, buffers->cell_capacity,
                  buffers->tape, buffers->tape_capacity, buffers->output, buffers->output_capacity, answer);
}

static inline void ola_run_text_in(const uint8_t *text, size_t text_length, uint64_t budget, ola_machine *machine,
                                   const ola_buffers *buffers, ola_answer *answer) {
    ola_run_text(text, text_length, budget, machine, buffers->addresses, buffers->cell_capacity,
                 buffers->numbers, buffers->cell_capacity, buffers->moments, buffers->cell_capacity,
                 buffers->tape, buffers->tape_capacity, buffers->output, buffers->output_capacity, answer);
}

static inline void ola_run_budget_text_in(const uint8_t *text, size_t text_length, ola_machine *machine,
                                          const ola_buffers *buffers, ola_answer *answer) {
    ola_run_budget_text(text, text_length, machine, buffers->addresses, buffers->cell_capacity,
                        buffers->numbers, buffers->cell_capacity, buffers->moments, buffers->cell_capacity,
                        buffers->tape, buffers->tape_capacity, buffers->output, buffers->output_capacity, answer);
}

static inline void ola_guarded_run_words_in(const uint64_t *words, size_t words_length, uint64_t budget,
                                            ola_machine *machine, ola_marks *extras, const ola_buffers *buffers,
                                            ola_answer *answer) {
    ola_guarded_run_words(words, words_length, budget, machine, extras, buffers->addresses, buffers->cell_capacity,
                          buffers->numbers, buffers->cell_capacity, buffers->moments, buffers->cell_capacity,
                          buffers->marks, buffers->cell_capacity, buffers->tape, buffers->tape_capacity,
                          buffers->output, buffers->output_capacity, answer);
}

static inline void ola_guarded_run_text_in(const uint8_t *text, size_t text_length, uint64_t budget,
                                           ola_machine *machine, ola_marks *extras, const ola_buffers *buffers,
                                           ola_answer *answer) {
    ola_guarded_run_text(text, text_length, budget, machine, extras, buffers->addresses, buffers->cell_capacity,
                         buffers->numbers, buffers->cell_capacity, buffers->moments, buffers->cell_capacity,
                         buffers->marks, buffers->cell_capacity, buffers->tape, buffers->tape_capacity,
                         buffers->output, buffers->output_capacity, answer);
}

static inline void ola_guarded_run_budget_text_in(const uint8_t *text, size_t text_length, ola_machine *machine,
                                                  ola_marks *extras, const ola_buffers *buffers, ola_answer *answer) {
    ola_guarded_run_budget_text(text, text_length, machine, extras, buffers->addresses, buffers->cell_capacity,
                                buffers->numbers, buffers->cell_capacity, buffers->moments, buffers->cell_capacity,
                                buffers->marks, buffers->cell_capacity, buffers->tape, buffers->tape_capacity,
                                buffers->output, buffers->output_capacity, answer);
}

static inline void ola_traced_run_words_in(const uint64_t *words, size_t words_length, uint64_t budget,
                                           ola_machine *machine, const ola_buffers *buffers,
                                           uint8_t *sheet, size_t sheet_capacity, ola_answer *answer) {
    ola_traced_run_words(words, words_length, budget, machine, buffers->addresses, buffers->cell_capacity,
                         buffers->numbers, buffers->cell_capacity, buffers->moments, buffers->cell_capacity,
                         buffers->tape, buffers->tape_capacity, buffers->output, buffers->output_capacity,
                         sheet, sheet_capacity, answer);
}

static inline void ola_traced_run_text_in(const uint8_t *text, size_t text_length, uint64_t budget,
                                          ola_machine *machine, const ola_buffers *buffers,
                                          uint8_t *sheet, size_t sheet_capacity, ola_answer *answer) {
    ola_traced_run_text(text, text_length, budget, machine, buffers->addresses, buffers->cell_capacity,
                        buffers->numbers, buffers->cell_capacity, buffers->moments, buffers->cell_capacity,
                        buffers->tape, buffers->tape_capacity, buffers->output, buffers->output_capacity,
                        sheet, sheet_capacity, answer);
}

static inline void ola_traced_run_budget_text_in(const uint8_t *text, size_t text_length, ola_machine *machine,
                                                 const ola_buffers *buffers, uint8_t *sheet, size_t sheet_capacity,
                                                 ola_answer *answer) {
    ola_traced_run_budget_text(text, text_length, machine, buffers->addresses, buffers->cell_capacity,
                               buffers->numbers, buffers->cell_capacity, buffers->moments, buffers->cell_capacity,
                               buffers->tape, buffers->tape_capacity, buffers->output, buffers->output_capacity,
                               sheet, sheet_capacity, answer);
}

static inline void ola_step_words_in(const uint64_t *words, size_t words_length, ola_machine *machine,
                                     const ola_buffers *buffers, ola_answer *answer) {
    ola_step_words(words, words_length, machine, buffers->addresses, buffers->cell_capacity,
                   buffers->numbers, buffers->cell_capacity, buffers->moments, buffers->cell_capacity,
                   buffers->tape, buffers->tape_capacity, buffers->output, buffers->output_capacity, answer);
}

static inline void ola_guarded_step_words_in(const uint64_t *words, size_t words_length, ola_machine *machine,
                                             ola_marks *extras, const ola_buffers *buffers, ola_answer *answer) {
    ola_guarded_step_words(words, words_length, machine, extras, buffers->addresses, buffers->cell_capacity,
                           buffers->numbers, buffers->cell_capacity, buffers->moments, buffers->cell_capacity,
                           buffers->marks, buffers->cell_capacity, buffers->tape, buffers->tape_capacity,
                           buffers->output, buffers->output_capacity, answer);
}

static inline void ola_check_words_in(const uint64_t *words, size_t words_length, const ola_machine *machine,
                                      const ola_buffers *buffers, ola_answer *answer) {
    ola_check_words(words, words_length, machine, buffers->addresses, buffers->cell_capacity,
                    buffers->numbers, buffers->cell_capacity, buffers->moments, buffers->cell_capacity,
                    buffers->tape, buffers->tape_capacity, buffers->output, buffers->output_capacity, answer);
}

static inline void ola_check_text_in(const uint8_t *text, size_t text_length, const ola_machine *machine,
                                     const ola_buffers *buffers, ola_answer *answer) {
    ola_check_text(text, text_length, machine, buffers->addresses, buffers->cell_capacity,
                   buffers->numbers, buffers->cell_capacity, buffers->moments, buffers->cell_capacity,
                   buffers->tape, buffers->tape_capacity, buffers->output, buffers->output_capacity, answer);
}

static inline void ola_check_budget_text_in(const uint8_t *text, size_t text_length, const ola_machine *machine,
                                            const ola_buffers *buffers, ola_answer *answer) {
    ola_check_budget_text(text, text_length, machine, buffers->addresses, buffers->cell_capacity,
                          buffers->numbers, buffers->cell_capacity, buffers->moments, buffers->cell_capacity,
                          buffers->tape, buffers->tape_capacity, buffers->output, buffers->output_capacity, answer);
}

static inline void ola_guarded_check_words_in(const uint64_t *words, size_t words_length, const ola_machine *machine,
                                              const ola_marks *extras, const ola_buffers *buffers, ola_answer *answer) {
    ola_guarded_check_words(words, words_length, machine, extras, buffers->addresses, buffers->cell_capacity,
                            buffers->numbers, buffers->cell_capacity, buffers->moments, buffers->cell_capacity,
                            buffers->marks, buffers->cell_capacity, buffers->tape, buffers->tape_capacity,
                            buffers->output, buffers->output_capacity, answer);
}

static inline void ola_guarded_check_text_in(const uint8_t *text, size_t text_length, const ola_machine *machine,
                                             const ola_marks *extras, const ola_buffers *buffers, ola_answer *answer) {
    ola_guarded_check_text(text, text_length, machine, extras, buffers->addresses, buffers->cell_capacity,
                           buffers->numbers, buffers->cell_capacity, buffers->moments, buffers->cell_capacity,
                           buffers->marks, buffers->cell_capacity, buffers->tape, buffers->tape_capacity,
                           buffers->output, buffers->output_capacity, answer);
}

static inline void ola_guarded_check_budget_text_in(const uint8_t *text, size_t text_length, const ola_machine *machine,
                                                    const ola_marks *extras, const ola_buffers *buffers,
                                                    ola_answer *answer) {
    ola_guarded_check_budget_text(text, text_length, machine, extras, buffers->addresses, buffers->cell_capacity,
                                  buffers->numbers, buffers->cell_capacity, buffers->moments, buffers->cell_capacity,
                                  buffers->marks, buffers->cell_capacity, buffers->tape, buffers->tape_capacity,
                                  buffers->output, buffers->output_capacity, answer);
}

#ifdef __cplusplus
}
#endif

#endif
