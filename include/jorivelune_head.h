// The calls of jorivelune.h on one struct that holds a head's shape, its cycle record and its buffers, so that no
// buffer can be lent in another's place and no length be wrong. Everything here is static inline and passes the
// library's answer on. C11 and C++17.
//
//   static uint8_t memory[JORIVELUNE_HEAD_BYTES(512, 50)];
//   struct jorivelune_head head;
//   struct jorivelune_shape shape = {2, 3, 2, 50, 512};
//   if (jorivelune_head_lend(&head, shape, memory, sizeof memory) == JORIVELUNE_TAKEN) ..
//
// The caller's own buffers (lows, highs, values, levels, finished, out) come with their lengths, the 16-bit inputs with
// their number, and question 6 refuses a wrong one. NULL stands for no bytes at all, so 6 refuses it; for an answer it
// says that the answer is not wanted.
#ifndef JORIVELUNE_HEAD_H
#define JORIVELUNE_HEAD_H

#include "jorivelune.h"

#ifdef __cplusplus
extern "C" {
#endif

// The bytes of memory that are enough for a head of so many rows and rule columns, whatever tau, for memory that is set
// aside when the program is built: 8 is the most check columns, and 5 the buffers of one byte a row.
// jorivelune_head_bytes tells the exact number.
#define JORIVELUNE_HEAD_BYTES(rows, width) ((rows) * ((width) + 8 + 5) + ((rows) + 63) / 64)

// So many bytes of the memory that is lent.
struct jorivelune_part {
    uint8_t *bytes;
    size_t length;
};

struct jorivelune_head {
    struct jorivelune_shape shape;
    struct jorivelune_record record;
    struct jorivelune_part cells, lines, counters, flags, totals, matches, belts;
};

// What jorivelune_sizes tells.
struct jorivelune_told_sizes {
    size_t levels, checks, columns, cells, blocks, steps;
};

// What jorivelune_panel tells.
struct jorivelune_told_panel {
    size_t total, first, read;
};

// ---- words and sizes

// What must hold where a call answers with this number.
static inline const char *jorivelune_words(uint8_t answer)
{
    switch (answer) {
#define JORIVELUNE_WORDED(name, number, words) \
    case number: \
        return words;
        JORIVELUNE_REFUSALS(JORIVELUNE_WORDED)
#undef JORIVELUNE_WORDED
    default:
        return "no call answers with this number";
    }
}

// q, r, n, m x n, blocks and the steps of a cycle that skips so many low digits, openings and all: 1 to 5, then 15.
static inline uint8_t jorivelune_head_sizes(struct jorivelune_shape shape, size_t skip,
                                            struct jorivelune_told_sizes *sizes)
{
    struct jorivelune_told_sizes unread;
    if (sizes == NULL)
        sizes = &unread;
    return jorivelune_sizes(shape, skip, &sizes->levels, &sizes->checks, &sizes->columns, &sizes->cells, &sizes->blocks,
                            &sizes->steps);
}

// The bytes of memory that a head of this shape and these sizes needs: its cells, five buffers of a byte a row, totals.
static inline size_t jorivelune_head_sum(struct jorivelune_shape shape, struct jorivelune_told_sizes sizes)
{
    return sizes.cells + 5 * shape.rows + sizes.blocks;
}

// The same of a shape, 0 where it is refused.
static inline uint8_t jorivelune_head_bytes(struct jorivelune_shape shape, size_t *bytes)
{
    struct jorivelune_told_sizes sizes;
    uint8_t answer = jorivelune_head_sizes(shape, 0, &sizes);
    if (bytes != NULL)
        *bytes = answer == JORIVELUNE_TAKEN ? jorivelune_head_sum(shape, sizes) : 0;
    return answer;
}

// ---- lending the memory

// The next part of the memory, of this length.
static inline struct jorivelune_part jorivelune_head_cut(uint8_t **memory, size_t length)
{
    struct jorivelune_part part;
    part.bytes = *memory;
    part.length = length;
    *memory += length;
    return part;
}

// Makes a head of this shape in the memory, which is not written: jorivelune_head_clear makes the fresh array there,
// and jorivelune_head_start opens a cycle on cells and lines that stand there already. A belt is whatever byte stands
// there until jorivelune_head_rule writes it. Questions 1 to 5, then 6 where the memory is too short. A refusal leaves
// the head as it was.
static inline uint8_t jorivelune_head_lend(struct jorivelune_head *head, struct jorivelune_shape shape,
                                           uint8_t *memory, size_t memory_length)
{
    struct jorivelune_told_sizes sizes;
    uint8_t answer = jorivelune_head_sizes(shape, 0, &sizes);
    if (answer != JORIVELUNE_TAKEN)
        return answer;
    if (memory == NULL || memory_length < jorivelune_head_sum(shape, sizes))
        return JORIVELUNE_BAD_LENGTH;
    head->shape = shape;
    head->record.phase = JORIVELUNE_IDLE;
    head->record.check = head->record.digit = head->record.column = head->record.factor = 0;
    head->record.count = head->record.skip = 0;
    head->cells = jorivelune_head_cut(&memory, sizes.cells);
    head->lines = jorivelune_head_cut(&memory, shape.rows);
    head->counters = jorivelune_head_cut(&memory, shape.rows);
    head->flags = jorivelune_head_cut(&memory, shape.rows);
    head->totals = jorivelune_head_cut(&memory, sizes.blocks);
    head->matches = jorivelune_head_cut(&memory, shape.rows);
    head->belts = jorivelune_head_cut(&memory, shape.rows);
    return JORIVELUNE_TAKEN;
}

// ---- NULL: the library wants a valid pointer, also for no bytes and for an answer that nobody reads

static inline const uint8_t *jorivelune_given(const uint8_t *bytes)
{
    static const uint8_t none = 0;
    return bytes == NULL ? &none : bytes;
}

static inline const uint16_t *jorivelune_given_inputs(const uint16_t *inputs)
{
    static const uint16_t none = 0;
    return inputs == NULL ? &none : inputs;
}

static inline uint8_t *jorivelune_lent(uint8_t *bytes)
{
    static uint8_t none = 0;
    return bytes == NULL ? &none : bytes;
}

static inline size_t jorivelune_given_length(const void *buffer, size_t length)
{
    return buffer == NULL ? 0 : length;
}

// A head's part, and a caller's buffer, as the pointer and the length that a call takes.
#define JORIVELUNE_PART(part) jorivelune_lent((part).bytes), jorivelune_given_length((part).bytes, (part).length)
#define JORIVELUNE_GIVEN(buffer) jorivelune_given(buffer), jorivelune_given_length(buffer, buffer##_length)
#define JORIVELUNE_INPUTS(buffer) jorivelune_given_inputs(buffer), jorivelune_given_length(buffer, buffer##_length)
#define JORIVELUNE_LENT(buffer) jorivelune_lent(buffer), jorivelune_given_length(buffer, buffer##_length)
#define JORIVELUNE_ROW_PARTS(head) \
    JORIVELUNE_PART((head)->counters), JORIVELUNE_PART((head)->flags), JORIVELUNE_PART((head)->totals)

// ---- calls that have the record

static inline uint8_t jorivelune_head_clear(struct jorivelune_head *head)
{
    return jorivelune_clear(&head->record, head->shape, JORIVELUNE_PART(head->cells), JORIVELUNE_PART(head->lines),
                            JORIVELUNE_ROW_PARTS(head));
}

static inline uint8_t jorivelune_head_program(struct jorivelune_head *head, size_t row,
                                              const uint8_t *levels, size_t levels_length)
{
    return jorivelune_program(&head->record, head->shape, JORIVELUNE_PART(head->cells), row, JORIVELUNE_GIVEN(levels));
}

static inline uint8_t jorivelune_head_commit(struct jorivelune_head *head, size_t row,
                                             const uint8_t *finished, size_t finished_length)
{
    return jorivelune_commit(&head->record, head->shape, JORIVELUNE_PART(head->cells), row, JORIVELUNE_GIVEN(finished));
}

static inline uint8_t jorivelune_head_start(struct jorivelune_head *head, size_t skip)
{
    return jorivelune_start(&head->record, head->shape, skip, JORIVELUNE_ROW_PARTS(head));
}

static inline uint8_t jorivelune_head_step(struct jorivelune_head *head)
{
    return jorivelune_step(&head->record, head->shape, JORIVELUNE_PART(head->cells), JORIVELUNE_PART(head->lines),
                           JORIVELUNE_ROW_PARTS(head), JORIVELUNE_PART(head->matches));
}

static inline uint8_t jorivelune_head_steps(struct jorivelune_head *head, size_t most)
{
    return jorivelune_steps(&head->record, head->shape, most, JORIVELUNE_PART(head->cells),
                            JORIVELUNE_PART(head->lines), JORIVELUNE_ROW_PARTS(head), JORIVELUNE_PART(head->matches));
}

static inline uint8_t jorivelune_head_run(struct jorivelune_head *head, size_t skip)
{
    return jorivelune_run(&head->record, head->shape, skip, JORIVELUNE_PART(head->cells), JORIVELUNE_PART(head->lines),
                          JORIVELUNE_ROW_PARTS(head), JORIVELUNE_PART(head->matches));
}

// ---- belt rules

static inline uint8_t jorivelune_head_rule(struct jorivelune_head *head, size_t row,
                                           const uint8_t *lows, size_t lows_length,
                                           const uint8_t *highs, size_t highs_length, uint8_t belt)
{
    return jorivelune_rule(&head->record, head->shape, JORIVELUNE_PART(head->cells), JORIVELUNE_PART(head->belts), row,
                           JORIVELUNE_GIVEN(lows), JORIVELUNE_GIVEN(highs), belt);
}

static inline uint8_t jorivelune_head_route(const struct jorivelune_head *head,
                                            const uint8_t *values, size_t values_length, size_t *found, uint8_t *belt)
{
    size_t unread;
    uint8_t unread_belt;
    return jorivelune_route(head->shape, JORIVELUNE_PART(head->cells), JORIVELUNE_PART(head->lines),
                            JORIVELUNE_PART(head->belts), JORIVELUNE_GIVEN(values), found == NULL ? &unread : found,
                            belt == NULL ? &unread_belt : belt);
}

static inline uint8_t jorivelune_head_rule_at(const struct jorivelune_head *head, size_t row,
                                              uint8_t *lows, size_t lows_length,
                                              uint8_t *highs, size_t highs_length, uint8_t *belt)
{
    uint8_t unread;
    return jorivelune_rule_at(head->shape, JORIVELUNE_PART(head->cells), JORIVELUNE_PART(head->belts), row,
                              JORIVELUNE_LENT(lows), JORIVELUNE_LENT(highs), belt == NULL ? &unread : belt);
}

// ---- calls without the record

static inline uint8_t jorivelune_head_panel(const struct jorivelune_head *head, struct jorivelune_told_panel *panel)
{
    struct jorivelune_told_panel unread;
    if (panel == NULL)
        panel = &unread;
    return jorivelune_panel(head->shape, JORIVELUNE_PART(head->flags), JORIVELUNE_PART(head->totals),
                            &panel->total, &panel->first, &panel->read);
}

static inline uint8_t jorivelune_head_line(struct jorivelune_head *head, size_t row, uint8_t byte)
{
    return jorivelune_line(head->shape, JORIVELUNE_PART(head->lines), row, byte);
}

static inline uint8_t jorivelune_head_drift(struct jorivelune_head *head, size_t row, size_t column, uint8_t level)
{
    return jorivelune_drift(head->shape, JORIVELUNE_PART(head->cells), row, column, level);
}

static inline uint8_t jorivelune_head_read(const struct jorivelune_head *head, size_t row,
                                           uint8_t *out, size_t out_length)
{
    return jorivelune_read(head->shape, JORIVELUNE_PART(head->cells), row, JORIVELUNE_LENT(out));
}

static inline uint8_t jorivelune_head_ask(const struct jorivelune_head *head, size_t row,
                                          const uint8_t *levels, size_t levels_length,
                                          uint8_t *finished, size_t finished_length, size_t *changed)
{
    size_t unread;
    return jorivelune_ask(head->shape, JORIVELUNE_PART(head->cells), row, JORIVELUNE_GIVEN(levels),
                          JORIVELUNE_LENT(finished), changed == NULL ? &unread : changed);
}

// The match bytes go to the head's own.
static inline uint8_t jorivelune_head_lookup(struct jorivelune_head *head, const uint16_t *inputs, size_t inputs_length,
                                             size_t *count)
{
    size_t unread;
    return jorivelune_lookup(head->shape, JORIVELUNE_PART(head->cells), JORIVELUNE_PART(head->lines),
                             JORIVELUNE_INPUTS(inputs), JORIVELUNE_PART(head->matches),
                             count == NULL ? &unread : count);
}

static inline uint8_t jorivelune_head_first_match(const struct jorivelune_head *head,
                                                  const uint16_t *inputs, size_t inputs_length, size_t *found)
{
    size_t unread;
    return jorivelune_first_match(head->shape, JORIVELUNE_PART(head->cells), JORIVELUNE_PART(head->lines),
                                  JORIVELUNE_INPUTS(inputs), found == NULL ? &unread : found);
}

static inline uint8_t jorivelune_head_sound(const struct jorivelune_head *head, size_t row, bool *holds)
{
    bool unread;
    return jorivelune_sound(head->shape, JORIVELUNE_PART(head->cells), row, holds == NULL ? &unread : holds);
}

#undef JORIVELUNE_PART
#undef JORIVELUNE_GIVEN
#undef JORIVELUNE_INPUTS
#undef JORIVELUNE_LENT
#undef JORIVELUNE_ROW_PARTS

#ifdef __cplusplus
}
#endif

#endif
