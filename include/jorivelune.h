// The library's calls for C11 and C++17 on x86-64. `tools/build jorivelune` makes target/staticlib/libjorivelune.a.
// jorivelune_head.h beside this file has the same calls on one struct that holds shape, record and buffers.
//
// Each call answers 0 where it is taken, or the number of the first question that fails (enum jorivelune_refusal). A
// refused call leaves the record and every buffer as they were, and every number that it would answer is 0.
//
// A shape is rho, b, tau, k and m: the radix, the digits of a level, the changed cells per row that are caught, the
// rule columns and the rows. From it follow, as jorivelune_sizes tells, q = rho to the power b levels, r check columns,
// n = k + r columns, m x n cells, blocks of 64 rows, and the steps of a cycle. A belt rule has f = k / 2 features. The
// buffers:
//
//   buffer    bytes          written by                     a byte is
//   cells     m x n          clear, rule, program, commit,  a level below q; in each row k rule cells, r check cells
//                            drift
//   lines     m              clear, line                    the row's match line: 0 is sound, 2 shorted, any other dead
//   counters  m              clear, start, steps            what the open check row has counted, modulo rho
//   flags     m              clear, start, steps            1 where the row is flagged, else 0
//   totals    (m + 63) / 64  clear, start, steps            the flagged rows of a block of 64 rows
//   matches   m              steps, lookup                  1 where the row matched the last vector, else 0
//   belts     m              rule                           the belt of the row's rule
//   lows      f              the caller, rule_at            the lowest value of a feature that the rule holds
//   highs     f              the caller, rule_at            the highest value of a feature that the rule holds
//   values    f              the caller                     a bottle's value of a feature, below q
//   levels    k              the caller                     a level below q: the rule cells of a row
//   inputs    k of 16 bits   the caller                     a 16-bit number, at most q: what a lookup feeds the rule
//                                                           columns; q is more than any cell answers
//   finished  n              ask, then the caller's         a cell of a row that is ready to be committed
//   out       k              read                           a rule cell of a row
//
// "Steps" are jorivelune_step, jorivelune_steps and jorivelune_run. Every buffer comes with its length in bytes, the
// inputs with their number. Any length may be given: question 6 refuses a wrong one. No call but jorivelune_rule writes
// a belt, so a clear keeps them.
//
// What a caller owes, since no call can ask for it:
// - each pointer is valid for the length that is given with it, for reading, and for writing where it is not const; it
//   is not NULL, also where the length is 0 (the calls of jorivelune_head.h take NULL); that of the inputs is aligned;
// - no two buffers of one call overlap, nor does the record or an answer lie in a buffer;
// - the record and the pointers for answers (size_t *, bool *, the uint8_t *belt of a route and of a rule that is read)
//   are valid, writable and aligned, no two the same.
#ifndef JORIVELUNE_H
#define JORIVELUNE_H

#if !defined(__x86_64__) || defined(__ILP32__) || defined(_WIN32)
#error "libjorivelune.a is built for x86-64 with 64-bit pointers and the System V calling convention"
#endif

#include <assert.h>
#include <stdbool.h>
#include <stddef.h>
#include <stdint.h>

#include "jorivelune_refusals.h"

#ifdef __cplusplus
extern "C" {
#endif

// What a call answers: JORIVELUNE_TAKEN, or which question failed.
enum jorivelune_refusal {
#define JORIVELUNE_NUMBERED(name, number, words) name = number,
    JORIVELUNE_REFUSALS(JORIVELUNE_NUMBERED)
#undef JORIVELUNE_NUMBERED
};

// Any numbers may be given: questions 1 to 5 say which are taken.
struct jorivelune_shape {
    size_t radix;  // rho
    size_t digits; // b
    size_t errors; // tau
    size_t width;  // k
    size_t rows;   // m
};

// What a record's phase is; any other number is read as idle.
enum jorivelune_phase {
    JORIVELUNE_IDLE = 0,    // no cycle: after a clear, a program or a commit
    JORIVELUNE_OPEN = 1,    // a cycle was started, and steps are to come
    JORIVELUNE_COMPLETE = 2 // the cycle's last step was made: the flags are those of a whole cycle
};

// The cycle record. All 0 is that of a fresh array. A caller keeps it and hands it to each call as the last one left
// it; a step refuses one that no start and steps on this shape left.
struct jorivelune_record {
    size_t phase;  // enum jorivelune_phase
    size_t check;  // the place of the next lookup: check row, digit, column and factor,
    size_t digit;  // all four 0 where an opening is next, count 0 or 1, and where none is to come
    size_t column;
    size_t factor;
    size_t count;  // the steps made since the start
    size_t skip;   // the low digits that the cycle skips
};

static_assert(sizeof(struct jorivelune_record) == 7 * sizeof(size_t), "the library's record has seven words");
static_assert(sizeof(struct jorivelune_shape) == 5 * sizeof(size_t), "the library's shape has five words");

// ---- before any other call

// What a caller has to know to lend the buffers: q, r, n, m x n, the blocks of 64 rows, and the steps of a cycle that
// skips so many low digits, its two openings among them. Questions 1 to 5, then 15.
uint8_t jorivelune_sizes(struct jorivelune_shape shape, size_t skip,
                         size_t *levels, size_t *checks, size_t *columns,
                         size_t *cells, size_t *blocks, size_t *steps);

// ---- calls that have the record

// The fresh array: cells, lines, counters, flags and totals all 0, the record idle.
uint8_t jorivelune_clear(struct jorivelune_record *record, struct jorivelune_shape shape,
                         uint8_t *cells, size_t cells_length,
                         uint8_t *lines, size_t lines_length,
                         uint8_t *counters, size_t counters_length,
                         uint8_t *flags, size_t flags_length,
                         uint8_t *totals, size_t totals_length);

// Writes a row of k levels with its check cells; the record becomes idle.
uint8_t jorivelune_program(struct jorivelune_record *record, struct jorivelune_shape shape,
                           uint8_t *cells, size_t cells_length,
                           size_t row, const uint8_t *levels, size_t levels_length);

// Writes a finished row of n cells, as jorivelune_ask gives it. Any bytes may be given: question 8 refuses one of q or
// more, and then question 17 a row that is not sound. It leaves what programming the first k of them leaves.
uint8_t jorivelune_commit(struct jorivelune_record *record, struct jorivelune_shape shape,
                          uint8_t *cells, size_t cells_length,
                          size_t row, const uint8_t *finished, size_t finished_length);

// Opens a cycle, also where one was open: counters, flags and totals 0. Skip is the number of low digits that the cycle
// skips: 0 for the whole cycle, below b for a coarse one, which sees only what differs above them.
uint8_t jorivelune_start(struct jorivelune_record *record, struct jorivelune_shape shape, size_t skip,
                         uint8_t *counters, size_t counters_length,
                         uint8_t *flags, size_t flags_length,
                         uint8_t *totals, size_t totals_length);

// The next lookup of the cycle. A cycle's first two steps are its openings, which count nothing. The first feeds 0 to
// every column and flags the rows that do not match: those with a dead line. The second feeds q to column 0 and 0 to
// all others, whatever the cycle skips, and flags the rows that match: those with a shorted line.
uint8_t jorivelune_step(struct jorivelune_record *record, struct jorivelune_shape shape,
                        const uint8_t *cells, size_t cells_length,
                        const uint8_t *lines, size_t lines_length,
                        uint8_t *counters, size_t counters_length,
                        uint8_t *flags, size_t flags_length,
                        uint8_t *totals, size_t totals_length,
                        uint8_t *matches, size_t matches_length);

// At most so many steps of the open cycle, one after the other, up to its end. The questions are those of a step, asked
// once, also where the number is 0; the match bytes are those of the last step that is made, and stay where none is.
uint8_t jorivelune_steps(struct jorivelune_record *record, struct jorivelune_shape shape, size_t most,
                         const uint8_t *cells, size_t cells_length,
                         const uint8_t *lines, size_t lines_length,
                         uint8_t *counters, size_t counters_length,
                         uint8_t *flags, size_t flags_length,
                         uint8_t *totals, size_t totals_length,
                         uint8_t *matches, size_t matches_length);

// A start and all the steps of a cycle.
uint8_t jorivelune_run(struct jorivelune_record *record, struct jorivelune_shape shape, size_t skip,
                       const uint8_t *cells, size_t cells_length,
                       const uint8_t *lines, size_t lines_length,
                       uint8_t *counters, size_t counters_length,
                       uint8_t *flags, size_t flags_length,
                       uint8_t *totals, size_t totals_length,
                       uint8_t *matches, size_t matches_length);

// ---- belt rules: ranges of values, and the belt for the bottles that are in all of them

// Writes a rule to a row: a bottle is held where each of its f values is from the low to the high of that feature. The
// row becomes what programming it leaves with high in column 2i and q - 1 - low in column 2i + 1 for feature i; the
// record becomes idle, and the row's belt becomes the rule's. Questions 1 to 5, 18 where k is odd, 6, 7, 8 where a low
// or a high is not below q, and then 19 where a low is above its high.
uint8_t jorivelune_rule(struct jorivelune_record *record, struct jorivelune_shape shape,
                        uint8_t *cells, size_t cells_length,
                        uint8_t *belts, size_t belts_length,
                        size_t row, const uint8_t *lows, size_t lows_length,
                        const uint8_t *highs, size_t highs_length, uint8_t belt);

// The first row whose rule holds the bottle goes to found, m where none does, and its belt to belt, 0 where none does.
// It is the row of jorivelune_first_match with x in column 2i and q - 1 - x in column 2i + 1 for the value x of feature
// i, so a row with a shorted line takes every bottle that comes to it. Questions 1 to 5, 18, 6, then 8 where a value is
// not below q.
uint8_t jorivelune_route(struct jorivelune_shape shape, const uint8_t *cells, size_t cells_length,
                         const uint8_t *lines, size_t lines_length,
                         const uint8_t *belts, size_t belts_length,
                         const uint8_t *values, size_t values_length, size_t *found, uint8_t *belt);

// The rule that stands in a row goes to lows, highs and belt: high is the cell of column 2i, and low is q - 1 less the
// cell of column 2i + 1, 0 where that cell is q or more. Of a cleared row they are q - 1 and 0, which hold no value.
// Questions 1 to 5, 18, 6, then 7.
uint8_t jorivelune_rule_at(struct jorivelune_shape shape, const uint8_t *cells, size_t cells_length,
                           const uint8_t *belts, size_t belts_length,
                           size_t row, uint8_t *lows, size_t lows_length,
                           uint8_t *highs, size_t highs_length, uint8_t *belt);

// ---- the panel

// The number of flagged rows, the sum of the totals, goes to total; the first flagged row to first, m where there is
// none; and the number of flags that were read for it to read: those of one block at most.
uint8_t jorivelune_panel(struct jorivelune_shape shape,
                         const uint8_t *flags, size_t flags_length,
                         const uint8_t *totals, size_t totals_length,
                         size_t *total, size_t *first, size_t *read);

// ---- calls without the record

// One row's line byte becomes 0, sound, 1, dead, or 2, shorted, and nothing else changes. A dead row matches nothing,
// and a shorted one everything.
uint8_t jorivelune_line(struct jorivelune_shape shape, uint8_t *lines, size_t lines_length,
                        size_t row, uint8_t byte);

// One cell changes to a level, and nothing else.
uint8_t jorivelune_drift(struct jorivelune_shape shape, uint8_t *cells, size_t cells_length,
                         size_t row, size_t column, uint8_t level);

// The k rule cells of a row go to out.
uint8_t jorivelune_read(struct jorivelune_shape shape, const uint8_t *cells, size_t cells_length,
                        size_t row, uint8_t *out, size_t out_length);

// The finished row of n cells that programming these levels would write goes to finished, and the number of its cells
// that differ from the row as it stands to changed. Array and record stay, also where a cycle is open.
uint8_t jorivelune_ask(struct jorivelune_shape shape, const uint8_t *cells, size_t cells_length,
                       size_t row, const uint8_t *levels, size_t levels_length,
                       uint8_t *finished, size_t finished_length, size_t *changed);

// A task lookup: a row with a sound line matches where every input is below q and at most its cell, one with a shorted
// line always, and one with a dead line never. The number of rows that match goes to count. Question 8 takes an input
// of q, and refuses one above.
uint8_t jorivelune_lookup(struct jorivelune_shape shape, const uint8_t *cells, size_t cells_length,
                          const uint8_t *lines, size_t lines_length,
                          const uint16_t *inputs, size_t inputs_length,
                          uint8_t *matches, size_t matches_length, size_t *count);

// The first row that matches goes to found, m where none does.
uint8_t jorivelune_first_match(struct jorivelune_shape shape, const uint8_t *cells, size_t cells_length,
                               const uint8_t *lines, size_t lines_length,
                               const uint16_t *inputs, size_t inputs_length, size_t *found);

// Whether the row is sound, its check cells those of its rule cells, goes to holds.
uint8_t jorivelune_sound(struct jorivelune_shape shape, const uint8_t *cells, size_t cells_length,
                         size_t row, bool *holds);

#ifdef __cplusplus
}
#endif

#endif
