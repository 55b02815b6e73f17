// The calls on one struct, by jorivelune_head.h. Each is made twice, on a head and by the plain
// call of jorivelune.h on buffers of their own; both have to leave the same record and the same
// bytes. Belt rules are made so on a second head, since the first has an odd number of rule
// columns. Besides: how the memory is lent, NULL, wrong lengths and the words of the refusals. This
// file is compiled as C11 and as C++17.
#include "jorivelune_head.h"

#include "expect.h"

#include <string.h>

// Two ways to make one call: both are taken, and leave the same.
#define SAME(by_head, by_hand) \
    do { \
        TAKEN(by_head); \
        TAKEN(by_hand); \
        EXPECT(same()); \
    } while (0)

// A buffer of the plain calls, with its length.
#define WHOLE(buffer) plain.buffer, sizeof plain.buffer

// An array whose five numbers and sizes are all different: q is 64, r is 5 and W is 26.
enum { ROWS = 600, CELLS = 7200, BLOCKS = 10, WIDTH = 7, COLUMNS = 12 };
enum { ENOUGH = JORIVELUNE_HEAD_BYTES(ROWS, WIDTH), EXACT = CELLS + 5 * ROWS + BLOCKS };

static const struct jorivelune_shape shape = {2, 6, 3, WIDTH, ROWS};
static const uint8_t rule[COLUMNS] = {1, 2, 3, 4, 5, 6, 8, 3, 10, 8, 5, 11};
static const uint8_t other_rule[WIDTH] = {1, 2, 3, 4, 5, 6, 9};
static const uint16_t task[WIDTH] = {1, 2, 3, 4, 5, 6, 8}, beyond[WIDTH] = {64, 0, 0, 0, 0, 0, 0};

static uint8_t memory[ENOUGH];
static struct jorivelune_head head;
static struct {
    struct jorivelune_record record;
    uint8_t cells[CELLS], lines[ROWS], counters[ROWS], flags[ROWS], totals[BLOCKS], matches[ROWS];
    uint8_t belts[ROWS];
} plain;

static bool equal(struct jorivelune_part part, const uint8_t *bytes, size_t length)
{
    return part.length == length && memcmp(part.bytes, bytes, length) == 0;
}

// The memory after what a head takes is as it was filled.
static bool rest_is_left(void)
{
    for (size_t place = EXACT; place < ENOUGH; place++)
        if (memory[place] != 99)
            return false;
    return true;
}

static bool same(void)
{
    return memcmp(&head.record, &plain.record, sizeof plain.record) == 0 &&
           equal(head.cells, WHOLE(cells)) && equal(head.lines, WHOLE(lines)) &&
           equal(head.counters, WHOLE(counters)) && equal(head.flags, WHOLE(flags)) &&
           equal(head.totals, WHOLE(totals)) && equal(head.matches, WHOLE(matches)) &&
           equal(head.belts, WHOLE(belts)) && rest_is_left();
}

// A head in all of the memory, and in each buffer of both bytes of its own.
static int begin(void)
{
    memset(memory, 99, sizeof memory);
    memset(&plain, 0, sizeof plain);
    TAKEN(jorivelune_head_lend(&head, shape, memory, sizeof memory));
    memset(plain.cells, 11, CELLS);
    memset(plain.lines, 12, ROWS);
    memset(plain.counters, 13, ROWS);
    memset(plain.flags, 14, ROWS);
    memset(plain.totals, 15, BLOCKS);
    memset(plain.matches, 16, ROWS);
    memset(plain.belts, 17, ROWS);
    memcpy(head.cells.bytes, plain.cells, CELLS);
    memcpy(head.lines.bytes, plain.lines, ROWS);
    memcpy(head.counters.bytes, plain.counters, ROWS);
    memcpy(head.flags.bytes, plain.flags, ROWS);
    memcpy(head.totals.bytes, plain.totals, BLOCKS);
    memcpy(head.matches.bytes, plain.matches, ROWS);
    memcpy(head.belts.bytes, plain.belts, ROWS);
    EXPECT(same());
    return 0;
}

// ---- words and sizes

// Every number from 0 to 19 has words of its own, and any other the same ones.
static int words(void)
{
    const char *none = jorivelune_words(200);

    EXPECT(none[0] != 0 && strcmp(none, jorivelune_words(255)) == 0);
    for (uint8_t number = 0; number <= 19; number++) {
        EXPECT(jorivelune_words(number)[0] != 0 && strcmp(none, jorivelune_words(number)) != 0);
        for (uint8_t lower = 0; lower < number; lower++)
            EXPECT(strcmp(jorivelune_words(lower), jorivelune_words(number)) != 0);
    }
    EXPECT(strstr(jorivelune_words(JORIVELUNE_BAD_RADIX), "radix") != NULL);
    EXPECT(strstr(jorivelune_words(JORIVELUNE_BAD_FINISHED), "finished") != NULL);
    EXPECT(strstr(jorivelune_words(JORIVELUNE_BAD_FEATURES), "feature") != NULL);
    EXPECT(strstr(jorivelune_words(JORIVELUNE_BAD_RANGE), "low") != NULL);
    return 0;
}

static int sizes(void)
{
    struct jorivelune_told_sizes told = {9, 9, 9, 9, 9, 9};
    struct jorivelune_shape high = shape;
    size_t bytes = 9;

    TAKEN(jorivelune_head_sizes(shape, 1, &told));
    EXPECT(told.levels == 64 && told.checks == 5 && told.columns == COLUMNS);
    EXPECT(told.cells == CELLS && told.blocks == BLOCKS && told.steps == 2 + 31 * 26);
    EXPECT(jorivelune_head_sum(shape, told) == EXACT);
    TAKEN(jorivelune_head_bytes(shape, &bytes));
    EXPECT(bytes == EXACT && EXACT < ENOUGH);
    TAKEN(jorivelune_head_sizes(shape, 5, NULL));
    TAKEN(jorivelune_head_bytes(shape, NULL));

    REFUSED(jorivelune_head_sizes(shape, 6, &told), SKIP);
    EXPECT(told.levels == 0 && told.checks == 0 && told.columns == 0);
    EXPECT(told.cells == 0 && told.blocks == 0 && told.steps == 0);
    high.rows = 4097;
    REFUSED(jorivelune_head_bytes(high, &bytes), ROWS);
    EXPECT(bytes == 0);
    REFUSED(jorivelune_head_sizes(high, 6, NULL), ROWS);
    REFUSED(jorivelune_head_bytes(high, NULL), ROWS);
    return 0;
}

// ---- lending the memory

static bool apart(struct jorivelune_part one, struct jorivelune_part other)
{
    return one.bytes + one.length <= other.bytes || other.bytes + other.length <= one.bytes;
}

// The parts of a head do not overlap, and fill so many bytes of the memory and no other.
static int parts(const struct jorivelune_head *cut, const uint8_t *lent, size_t bytes)
{
    const struct jorivelune_part each[7] = {cut->cells,  cut->lines,   cut->counters, cut->flags,
                                            cut->totals, cut->matches, cut->belts};
    size_t sum = 0;

    for (int i = 0; i < 7; i++) {
        sum += each[i].length;
        EXPECT(each[i].length > 0 && each[i].bytes >= lent);
        EXPECT(each[i].bytes + each[i].length <= lent + bytes);
        for (int j = 0; j < i; j++)
            EXPECT(apart(each[i], each[j]));
    }
    EXPECT(sum == bytes);
    return 0;
}

// A head of any shape takes exactly the bytes that are told, of those that are enough for it.
static int heads_of_all_shapes(void)
{
    static uint8_t most[JORIVELUNE_HEAD_BYTES(4096, 254)];
    const size_t rows[6] = {1, 63, 64, 65, 600, 4096}, widths[3] = {254, 247, 120};

    for (size_t errors = 1; errors <= 3; errors++)
        for (size_t width = 1; width <= widths[errors - 1]; width++)
            for (int i = 0; i < 6; i++) {
                const struct jorivelune_shape any = {3, 4, errors, width, rows[i]};
                struct jorivelune_head cut;
                size_t bytes = 0;
                TAKEN(jorivelune_head_bytes(any, &bytes));
                EXPECT(bytes <= JORIVELUNE_HEAD_BYTES(rows[i], width) && bytes <= sizeof most);
                REFUSED(jorivelune_head_lend(&cut, any, most, bytes - 1), LENGTH);
                TAKEN(jorivelune_head_lend(&cut, any, most, bytes));
                EXPECT(parts(&cut, most, bytes) == 0);
                EXPECT(cut.lines.length == rows[i] && cut.counters.length == rows[i]);
                EXPECT(cut.flags.length == rows[i] && cut.matches.length == rows[i]);
                EXPECT(cut.belts.length == rows[i]);
                EXPECT(cut.cells.length % rows[i] == 0 && cut.cells.length / rows[i] > width);
                EXPECT(cut.totals.length == (rows[i] + 63) / 64);
            }
    return 0;
}

// A refusal leaves the head; lending writes no byte of the memory.
static int lending(void)
{
    const struct jorivelune_shape bad[5] = {{1, 6, 3, WIDTH, ROWS},
                                            {2, 9, 3, WIDTH, ROWS},
                                            {2, 6, 4, WIDTH, ROWS},
                                            {2, 6, 3, 0, ROWS},
                                            {2, 6, 3, WIDTH, 0}};
    struct jorivelune_head before;

    memset(memory, 99, sizeof memory);
    memset(&head, 7, sizeof head);
    before = head;
    REFUSED(jorivelune_head_lend(&head, shape, memory, EXACT - 1), LENGTH);
    REFUSED(jorivelune_head_lend(&head, shape, memory, 0), LENGTH);
    REFUSED(jorivelune_head_lend(&head, shape, NULL, ENOUGH), LENGTH);
    for (uint8_t question = 1; question <= 5; question++)
        EXPECT(jorivelune_head_lend(&head, bad[question - 1], NULL, 0) == question);
    EXPECT(memcmp(&before, &head, sizeof head) == 0);

    TAKEN(jorivelune_head_lend(&head, shape, memory, EXACT));
    EXPECT(parts(&head, memory, EXACT) == 0);
    before = head;
    TAKEN(jorivelune_head_lend(&head, shape, memory, ENOUGH));
    EXPECT(memcmp(&before, &head, sizeof head) == 0);
    EXPECT(memcmp(&head.shape, &shape, sizeof shape) == 0);
    EXPECT(head.record.phase == JORIVELUNE_IDLE && head.record.count == 0 && head.record.skip == 0);
    EXPECT(head.record.check == 0 && head.record.digit == 0);
    EXPECT(head.record.column == 0 && head.record.factor == 0);
    for (size_t place = 0; place < ENOUGH; place++)
        EXPECT(memory[place] == 99);
    return 0;
}

// ---- every call both ways

// A cycle on whatever stands there and a shorted line: a start, two openings, some steps, and the
// rest of a coarse run.
static int foreign_bytes(void)
{
    EXPECT(begin() == 0);
    SAME(jorivelune_head_line(&head, 7, 2), jorivelune_line(shape, WHOLE(lines), 7, 2));
    SAME(jorivelune_head_start(&head, 2),
         jorivelune_start(&plain.record, shape, 2, WHOLE(counters), WHOLE(flags), WHOLE(totals)));
    SAME(jorivelune_head_step(&head),
         jorivelune_step(&plain.record, shape, WHOLE(cells), WHOLE(lines), WHOLE(counters),
                         WHOLE(flags), WHOLE(totals), WHOLE(matches)));
    EXPECT(head.record.count == 1 && head.totals.bytes[0] == 63 && head.flags.bytes[7] == 0);
    SAME(jorivelune_head_step(&head),
         jorivelune_step(&plain.record, shape, WHOLE(cells), WHOLE(lines), WHOLE(counters),
                         WHOLE(flags), WHOLE(totals), WHOLE(matches)));
    EXPECT(head.record.count == 2 && head.totals.bytes[0] == 64 && head.flags.bytes[7] == 1);
    SAME(jorivelune_head_steps(&head, 356),
         jorivelune_steps(&plain.record, shape, 356, WHOLE(cells), WHOLE(lines), WHOLE(counters),
                          WHOLE(flags), WHOLE(totals), WHOLE(matches)));
    EXPECT(head.record.check == 4 && head.record.digit == 3 && head.record.column == 11);
    EXPECT(head.record.factor == 5 && head.record.count == 358 && head.record.skip == 2);
    SAME(jorivelune_head_run(&head, 3),
         jorivelune_run(&plain.record, shape, 3, WHOLE(cells), WHOLE(lines), WHOLE(counters),
                        WHOLE(flags), WHOLE(totals), WHOLE(matches)));
    EXPECT(head.record.phase == JORIVELUNE_COMPLETE && head.record.count == 2 + 7 * 26);
    return 0;
}

// The fresh array, rows that are written, and cells and lines that go wrong.
static int written_rows(void)
{
    EXPECT(begin() == 0);
    SAME(jorivelune_head_clear(&head),
         jorivelune_clear(&plain.record, shape, WHOLE(cells), WHOLE(lines), WHOLE(counters),
                          WHOLE(flags), WHOLE(totals)));
    for (size_t row = 150; row < 159; row++)
        SAME(jorivelune_head_program(&head, row, rule, WIDTH),
             jorivelune_program(&plain.record, shape, WHOLE(cells), row, rule, WIDTH));
    SAME(jorivelune_head_commit(&head, 301, rule, COLUMNS),
         jorivelune_commit(&plain.record, shape, WHOLE(cells), 301, rule, COLUMNS));
    EXPECT(memcmp(head.cells.bytes + 301 * COLUMNS, rule, COLUMNS) == 0);
    SAME(jorivelune_head_drift(&head, 72, 0, 1),
         jorivelune_drift(shape, WHOLE(cells), 72, 0, 1));
    SAME(jorivelune_head_drift(&head, 599, 11, 63),
         jorivelune_drift(shape, WHOLE(cells), 599, 11, 63));
    SAME(jorivelune_head_line(&head, 150, 1), jorivelune_line(shape, WHOLE(lines), 150, 1));
    SAME(jorivelune_head_line(&head, 400, 2), jorivelune_line(shape, WHOLE(lines), 400, 2));
    EXPECT(head.cells.bytes[72 * COLUMNS] == 1);
    EXPECT(head.lines.bytes[150] == 1 && head.lines.bytes[400] == 2);
    return 0;
}

// A whole cycle finds the four rows, by a run and by steps with counters in the middle of it.
static int whole_cycle(void)
{
    SAME(jorivelune_head_start(&head, 0),
         jorivelune_start(&plain.record, shape, 0, WHOLE(counters), WHOLE(flags), WHOLE(totals)));
    SAME(jorivelune_head_steps(&head, 20),
         jorivelune_steps(&plain.record, shape, 20, WHOLE(cells), WHOLE(lines), WHOLE(counters),
                          WHOLE(flags), WHOLE(totals), WHOLE(matches)));
    EXPECT(memcmp(head.counters.bytes, head.flags.bytes, ROWS) != 0);
    EXPECT(memcmp(head.matches.bytes, head.flags.bytes, ROWS) != 0);
    SAME(jorivelune_head_step(&head),
         jorivelune_step(&plain.record, shape, WHOLE(cells), WHOLE(lines), WHOLE(counters),
                         WHOLE(flags), WHOLE(totals), WHOLE(matches)));
    EXPECT(head.record.phase == JORIVELUNE_OPEN && head.record.count == 21);
    SAME(jorivelune_head_run(&head, 0),
         jorivelune_run(&plain.record, shape, 0, WHOLE(cells), WHOLE(lines), WHOLE(counters),
                        WHOLE(flags), WHOLE(totals), WHOLE(matches)));
    EXPECT(head.record.phase == JORIVELUNE_COMPLETE && head.record.count == 2 + 63 * 26);
    EXPECT(head.flags.bytes[72] == 1 && head.flags.bytes[150] == 1 && head.flags.bytes[599] == 1);
    EXPECT(head.flags.bytes[400] == 1 && head.matches.bytes[400] == 1);
    EXPECT(head.matches.bytes[599] == 1 && head.counters.bytes[599] == 0);
    return 0;
}

static int panel(void)
{
    struct jorivelune_told_panel told = {1, 1, 1};
    size_t total = 1, first = 1, read = 1;

    SAME(jorivelune_head_panel(&head, &told),
         jorivelune_panel(shape, WHOLE(flags), WHOLE(totals), &total, &first, &read));
    EXPECT(told.total == 4 && told.first == 72 && told.read == 9);
    EXPECT(total == 4 && first == 72 && read == 9);
    TAKEN(jorivelune_head_panel(&head, NULL));
    return 0;
}

// The line of the first of nine equal rows is dead; the row of the commit matches too, and the
// shorted one, which alone matches q.
static int lookups(void)
{
    size_t count = 0, by_hand = 0, found = 0, found_by_hand = 0;

    SAME(jorivelune_head_lookup(&head, beyond, WIDTH, &count),
         jorivelune_lookup(shape, WHOLE(cells), WHOLE(lines), beyond, WIDTH, WHOLE(matches),
                           &by_hand));
    EXPECT(count == 1 && by_hand == 1 && head.matches.bytes[400] == 1);
    SAME(jorivelune_head_first_match(&head, beyond, WIDTH, &found),
         jorivelune_first_match(shape, WHOLE(cells), WHOLE(lines), beyond, WIDTH, &found_by_hand));
    EXPECT(found == 400 && found_by_hand == 400);
    SAME(jorivelune_head_lookup(&head, task, WIDTH, &count),
         jorivelune_lookup(shape, WHOLE(cells), WHOLE(lines), task, WIDTH, WHOLE(matches),
                           &by_hand));
    EXPECT(count == 10 && by_hand == 10 && head.matches.bytes[301] == 1);
    SAME(jorivelune_head_first_match(&head, task, WIDTH, &found),
         jorivelune_first_match(shape, WHOLE(cells), WHOLE(lines), task, WIDTH, &found_by_hand));
    EXPECT(found == 151 && found_by_hand == 151);
    memset(head.matches.bytes, 16, ROWS);
    TAKEN(jorivelune_head_lookup(&head, task, WIDTH, NULL));
    TAKEN(jorivelune_head_first_match(&head, task, WIDTH, NULL));
    EXPECT(same());
    return 0;
}

static int rows_by_number(void)
{
    uint8_t finished[COLUMNS] = {0}, by_hand[COLUMNS] = {0}, out[WIDTH] = {0}, copy[WIDTH] = {0};
    size_t changed = 0, changes = 0;
    bool holds = false, by_plain = false;

    SAME(jorivelune_head_ask(&head, 301, other_rule, WIDTH, finished, COLUMNS, &changed),
         jorivelune_ask(shape, WHOLE(cells), 301, other_rule, WIDTH, by_hand, COLUMNS, &changes));
    EXPECT(changed == 4 && changes == 4 && memcmp(finished, by_hand, COLUMNS) == 0);
    EXPECT(finished[6] == 9 && memcmp(finished, other_rule, WIDTH) == 0);
    memset(finished, 0, COLUMNS);
    TAKEN(jorivelune_head_ask(&head, 301, other_rule, WIDTH, finished, COLUMNS, NULL));
    EXPECT(memcmp(finished, by_hand, COLUMNS) == 0);
    SAME(jorivelune_head_read(&head, 301, out, WIDTH),
         jorivelune_read(shape, WHOLE(cells), 301, copy, WIDTH));
    EXPECT(memcmp(out, rule, WIDTH) == 0 && memcmp(copy, rule, WIDTH) == 0);
    SAME(jorivelune_head_sound(&head, 301, &holds),
         jorivelune_sound(shape, WHOLE(cells), 301, &by_plain));
    EXPECT(holds && by_plain);
    SAME(jorivelune_head_sound(&head, 72, &holds),
         jorivelune_sound(shape, WHOLE(cells), 72, &by_plain));
    EXPECT(!holds && !by_plain);
    TAKEN(jorivelune_head_sound(&head, 72, NULL));
    EXPECT(same());
    return 0;
}

// ---- belt rules

// A head of four features: q is 64, r is 5 and n is 13.
enum { FEATURES = 4, SORTER_COLUMNS = 13 };

static const struct jorivelune_shape sorter_shape = {2, 6, 3, 2 * FEATURES, ROWS};
static const uint8_t rule_lows[FEATURES] = {5, 0, 63, 20}, rule_highs[FEATURES] = {9, 63, 63, 40};
static const uint8_t bottle[FEATURES] = {7, 1, 63, 40};

static uint8_t sorter_memory[JORIVELUNE_HEAD_BYTES(ROWS, 2 * FEATURES)];
static struct jorivelune_head sorter;
static struct {
    struct jorivelune_record record;
    uint8_t cells[ROWS * SORTER_COLUMNS], lines[ROWS], belts[ROWS];
} by_hand;

static bool same_belts(void)
{
    return memcmp(&sorter.record, &by_hand.record, sizeof by_hand.record) == 0 &&
           equal(sorter.cells, by_hand.cells, sizeof by_hand.cells) &&
           equal(sorter.lines, by_hand.lines, ROWS) && equal(sorter.belts, by_hand.belts, ROWS);
}

// Two ways to make one call of the router: both are taken, and leave the same.
#define SAME_BELTS(by_head, plainly) \
    do { \
        TAKEN(by_head); \
        TAKEN(plainly); \
        EXPECT(same_belts()); \
    } while (0)

// A fresh array but for its belts, and in it two rules of which the first holds the bottle.
static int written_rules(void)
{
    const uint8_t levels[2 * FEATURES] = {9, 58, 63, 63, 63, 0, 40, 43};
    const uint8_t least[FEATURES] = {0, 0, 0, 0}, most[FEATURES] = {63, 63, 63, 63};

    memset(sorter_memory, 0, sizeof sorter_memory);
    TAKEN(jorivelune_head_lend(&sorter, sorter_shape, sorter_memory, sizeof sorter_memory));
    TAKEN(jorivelune_head_clear(&sorter));
    memset(sorter.belts.bytes, 17, ROWS);
    memset(by_hand.belts, 17, ROWS);
    EXPECT(same_belts());
    SAME_BELTS(jorivelune_head_rule(&sorter, 151, rule_lows, FEATURES, rule_highs, FEATURES, 77),
               jorivelune_rule(&by_hand.record, sorter_shape, by_hand.cells, sizeof by_hand.cells,
                               by_hand.belts, ROWS, 151, rule_lows, FEATURES, rule_highs, FEATURES,
                               77));
    EXPECT(memcmp(sorter.cells.bytes + 151 * SORTER_COLUMNS, levels, sizeof levels) == 0);
    EXPECT(sorter.belts.bytes[151] == 77 && sorter.belts.bytes[150] == 17);
    SAME_BELTS(jorivelune_head_rule(&sorter, 300, least, FEATURES, most, FEATURES, 88),
               jorivelune_rule(&by_hand.record, sorter_shape, by_hand.cells, sizeof by_hand.cells,
                               by_hand.belts, ROWS, 300, least, FEATURES, most, FEATURES, 88));
    return 0;
}

static uint8_t route_by_hand(const uint8_t *values, size_t *found, uint8_t *belt)
{
    return jorivelune_route(sorter_shape, by_hand.cells, sizeof by_hand.cells, by_hand.lines, ROWS,
                            by_hand.belts, ROWS, values, FEATURES, found, belt);
}

// The bottle goes to the first rule, and one that is too high in a feature to the second; where
// both lines are dead, to none; and where a row is shorted, there.
static int routes(void)
{
    const uint8_t high[FEATURES] = {7, 1, 63, 41};
    size_t found = 9, found_by_hand = 9;
    uint8_t belt = 9, belt_by_hand = 9;

    SAME_BELTS(jorivelune_head_route(&sorter, bottle, FEATURES, &found, &belt),
               route_by_hand(bottle, &found_by_hand, &belt_by_hand));
    EXPECT(found == 151 && belt == 77 && found_by_hand == 151 && belt_by_hand == 77);
    SAME_BELTS(jorivelune_head_route(&sorter, high, FEATURES, &found, &belt),
               route_by_hand(high, &found_by_hand, &belt_by_hand));
    EXPECT(found == 300 && belt == 88 && found_by_hand == 300 && belt_by_hand == 88);
    sorter.lines.bytes[151] = by_hand.lines[151] = 1;
    SAME_BELTS(jorivelune_head_route(&sorter, bottle, FEATURES, &found, NULL),
               route_by_hand(bottle, &found_by_hand, &belt_by_hand));
    EXPECT(found == 300 && found_by_hand == 300);
    sorter.lines.bytes[300] = by_hand.lines[300] = 3;
    SAME_BELTS(jorivelune_head_route(&sorter, bottle, FEATURES, NULL, &belt),
               route_by_hand(bottle, &found_by_hand, &belt_by_hand));
    EXPECT(belt == 0 && found_by_hand == ROWS && belt_by_hand == 0);
    sorter.lines.bytes[599] = by_hand.lines[599] = 2;
    SAME_BELTS(jorivelune_head_route(&sorter, bottle, FEATURES, &found, &belt),
               route_by_hand(bottle, &found_by_hand, &belt_by_hand));
    EXPECT(found == 599 && belt == 17 && found_by_hand == 599 && belt_by_hand == 17);
    TAKEN(jorivelune_head_route(&sorter, bottle, FEATURES, NULL, NULL));
    EXPECT(same_belts());
    return 0;
}

static int rules_by_number(void)
{
    uint8_t lows[FEATURES] = {1, 1, 1, 1}, highs[FEATURES] = {2, 2, 2, 2}, belt = 9;
    uint8_t more_lows[FEATURES] = {1, 1, 1, 1}, more_highs[FEATURES] = {2, 2, 2, 2}, other = 9;

    SAME_BELTS(jorivelune_head_rule_at(&sorter, 151, lows, FEATURES, highs, FEATURES, &belt),
               jorivelune_rule_at(sorter_shape, by_hand.cells, sizeof by_hand.cells, by_hand.belts,
                                  ROWS, 151, more_lows, FEATURES, more_highs, FEATURES, &other));
    EXPECT(memcmp(lows, rule_lows, FEATURES) == 0 && memcmp(more_lows, rule_lows, FEATURES) == 0);
    EXPECT(memcmp(highs, rule_highs, FEATURES) == 0);
    EXPECT(memcmp(more_highs, rule_highs, FEATURES) == 0 && belt == 77 && other == 77);
    memset(lows, 1, FEATURES);
    TAKEN(jorivelune_head_rule_at(&sorter, 151, lows, FEATURES, highs, FEATURES, NULL));
    EXPECT(memcmp(lows, rule_lows, FEATURES) == 0 && same_belts());
    return 0;
}

// NULL for a buffer and wrong lengths, and the other questions; nothing is changed.
static int refused_rules(void)
{
    uint8_t lows[FEATURES + 1] = {0}, highs[FEATURES + 1] = {0}, belt = 9;
    size_t found = 9;

    for (size_t length = 0; length <= FEATURES + 1; length++) {
        REFUSED(jorivelune_head_rule(&sorter, 0, NULL, length, highs, FEATURES, 5), LENGTH);
        REFUSED(jorivelune_head_rule(&sorter, 0, lows, FEATURES, NULL, length, 5), LENGTH);
        REFUSED(jorivelune_head_route(&sorter, NULL, length, &found, &belt), LENGTH);
        EXPECT(found == 0 && belt == 0);
        REFUSED(jorivelune_head_rule_at(&sorter, 0, NULL, length, highs, FEATURES, &belt), LENGTH);
        REFUSED(jorivelune_head_rule_at(&sorter, 0, lows, FEATURES, NULL, length, NULL), LENGTH);
        if (length == FEATURES)
            continue;
        REFUSED(jorivelune_head_rule(&sorter, 0, lows, length, highs, FEATURES, 5), LENGTH);
        REFUSED(jorivelune_head_rule(&sorter, 0, lows, FEATURES, highs, length, 5), LENGTH);
        REFUSED(jorivelune_head_route(&sorter, lows, length, NULL, NULL), LENGTH);
        REFUSED(jorivelune_head_rule_at(&sorter, 0, lows, length, highs, FEATURES, NULL), LENGTH);
        REFUSED(jorivelune_head_rule_at(&sorter, 0, lows, FEATURES, highs, length, NULL), LENGTH);
    }
    belt = 9;
    REFUSED(jorivelune_head_rule_at(&sorter, ROWS, lows, FEATURES, highs, FEATURES, &belt), PLACE);
    EXPECT(belt == 0 && lows[0] == 0 && highs[0] == 0);
    lows[3] = 1;
    REFUSED(jorivelune_head_rule(&sorter, 0, lows, FEATURES, highs, FEATURES, 5), RANGE);
    lows[1] = 64;
    REFUSED(jorivelune_head_rule(&sorter, 0, lows, FEATURES, highs, FEATURES, 5), LEVEL);
    REFUSED(jorivelune_head_rule(&sorter, ROWS, lows, FEATURES, highs, FEATURES, 5), PLACE);
    found = belt = 9;
    REFUSED(jorivelune_head_route(&sorter, lows, FEATURES, &found, &belt), LEVEL);
    EXPECT(found == 0 && belt == 0 && same_belts());
    return 0;
}

// A head without belts: the router's calls are refused, and no other call asks for them.
static int no_belts(void)
{
    struct jorivelune_head without = sorter;
    uint8_t lows[FEATURES], highs[FEATURES];
    bool holds = false;

    without.belts.bytes = NULL;
    REFUSED(jorivelune_head_rule(&without, 0, rule_lows, FEATURES, rule_highs, FEATURES, 5),
            LENGTH);
    REFUSED(jorivelune_head_route(&without, bottle, FEATURES, NULL, NULL), LENGTH);
    REFUSED(jorivelune_head_rule_at(&without, 0, lows, FEATURES, highs, FEATURES, NULL), LENGTH);
    TAKEN(jorivelune_head_sound(&without, 151, &holds));
    EXPECT(holds && same_belts());
    TAKEN(jorivelune_head_clear(&without));
    EXPECT(sorter.cells.bytes[151 * SORTER_COLUMNS] == 0 && sorter.belts.bytes[151] == 77);
    return 0;
}

// ---- refusals, after which nothing is changed

// NULL for a buffer, whatever its length: no bytes.
static int no_bytes(void)
{
    uint8_t finished[COLUMNS] = {0};
    size_t changed = 9, count = 9, found = 9;

    for (size_t length = 0; length <= COLUMNS; length++) {
        REFUSED(jorivelune_head_program(&head, 0, NULL, length), LENGTH);
        REFUSED(jorivelune_head_commit(&head, 0, NULL, length), LENGTH);
        REFUSED(jorivelune_head_read(&head, 0, NULL, length), LENGTH);
        REFUSED(jorivelune_head_ask(&head, 0, NULL, length, finished, COLUMNS, &changed), LENGTH);
        REFUSED(jorivelune_head_ask(&head, 0, rule, WIDTH, NULL, length, NULL), LENGTH);
        REFUSED(jorivelune_head_lookup(&head, NULL, length, &count), LENGTH);
        REFUSED(jorivelune_head_first_match(&head, NULL, length, &found), LENGTH);
    }
    EXPECT(changed == 0 && count == 0 && found == 0 && finished[0] == 0);
    EXPECT(same());
    return 0;
}

// One byte or number less and one more of each buffer of the caller's.
static int wrong_lengths(void)
{
    uint8_t levels[WIDTH + 1] = {0}, cells[COLUMNS + 1] = {0};
    uint16_t inputs[WIDTH + 1] = {0};
    size_t changed = 9, count = 9, found = 9;

    for (size_t narrow = WIDTH - 1; narrow <= WIDTH + 1; narrow += 2) {
        REFUSED(jorivelune_head_program(&head, 0, levels, narrow), LENGTH);
        REFUSED(jorivelune_head_read(&head, 0, levels, narrow), LENGTH);
        REFUSED(jorivelune_head_ask(&head, 0, levels, narrow, cells, COLUMNS, &changed), LENGTH);
        REFUSED(jorivelune_head_lookup(&head, inputs, narrow, &count), LENGTH);
        REFUSED(jorivelune_head_first_match(&head, inputs, narrow, &found), LENGTH);
    }
    for (size_t wide = COLUMNS - 1; wide <= COLUMNS + 1; wide += 2) {
        REFUSED(jorivelune_head_commit(&head, 0, cells, wide), LENGTH);
        REFUSED(jorivelune_head_ask(&head, 0, levels, WIDTH, cells, wide, &changed), LENGTH);
    }
    EXPECT(changed == 0 && count == 0 && found == 0);
    EXPECT(same());
    return 0;
}

// The other questions are passed on.
static int other_questions(void)
{
    bool holds = true;
    const uint16_t above[WIDTH] = {0, 0, 0, 0, 0, 0, 65};
    uint8_t lows[3] = {0}, highs[3] = {0}, belt = 9;
    size_t count = 9, found = 9;

    REFUSED(jorivelune_head_step(&head), RECORD);
    REFUSED(jorivelune_head_steps(&head, 0), RECORD);
    REFUSED(jorivelune_head_start(&head, 6), SKIP);
    REFUSED(jorivelune_head_run(&head, 6), SKIP);
    REFUSED(jorivelune_head_line(&head, 0, 3), LINE);
    REFUSED(jorivelune_head_line(&head, ROWS, 3), PLACE);
    REFUSED(jorivelune_head_drift(&head, 0, COLUMNS, 0), PLACE);
    REFUSED(jorivelune_head_drift(&head, 0, 0, 64), LEVEL);
    REFUSED(jorivelune_head_lookup(&head, above, WIDTH, &count), LEVEL);
    REFUSED(jorivelune_head_first_match(&head, above, WIDTH, &found), LEVEL);
    EXPECT(count == 0 && found == 0);
    REFUSED(jorivelune_head_sound(&head, ROWS, &holds), PLACE);
    REFUSED(jorivelune_head_rule(&head, 0, lows, 3, highs, 3, 5), FEATURES);
    found = 9;
    REFUSED(jorivelune_head_route(&head, NULL, 0, &found, &belt), FEATURES);
    EXPECT(found == 0 && belt == 0);
    belt = 9;
    REFUSED(jorivelune_head_rule_at(&head, ROWS, NULL, 0, NULL, 0, &belt), FEATURES);
    EXPECT(belt == 0 && !holds && same());
    return 0;
}

// A head of zeros: the first question refuses every call.
static int empty_head(void)
{
    struct jorivelune_head empty, zeros;
    struct jorivelune_told_panel told = {9, 9, 9};
    uint8_t bytes[COLUMNS] = {0}, more[FEATURES] = {0}, belt = 9;
    size_t number = 9;
    bool holds = true;

    memset(&empty, 0, sizeof empty);
    zeros = empty;
    REFUSED(jorivelune_head_clear(&empty), RADIX);
    REFUSED(jorivelune_head_program(&empty, 0, rule, WIDTH), RADIX);
    REFUSED(jorivelune_head_commit(&empty, 0, rule, COLUMNS), RADIX);
    REFUSED(jorivelune_head_start(&empty, 0), RADIX);
    REFUSED(jorivelune_head_step(&empty), RADIX);
    REFUSED(jorivelune_head_steps(&empty, 1), RADIX);
    REFUSED(jorivelune_head_run(&empty, 0), RADIX);
    REFUSED(jorivelune_head_panel(&empty, &told), RADIX);
    EXPECT(told.total == 0 && told.first == 0 && told.read == 0);
    REFUSED(jorivelune_head_line(&empty, 0, 1), RADIX);
    REFUSED(jorivelune_head_drift(&empty, 0, 0, 1), RADIX);
    REFUSED(jorivelune_head_read(&empty, 0, bytes, WIDTH), RADIX);
    REFUSED(jorivelune_head_ask(&empty, 0, rule, WIDTH, bytes, COLUMNS, &number), RADIX);
    EXPECT(number == 0);
    number = 9;
    REFUSED(jorivelune_head_lookup(&empty, task, WIDTH, &number), RADIX);
    EXPECT(number == 0);
    number = 9;
    REFUSED(jorivelune_head_first_match(&empty, task, WIDTH, &number), RADIX);
    REFUSED(jorivelune_head_sound(&empty, 0, &holds), RADIX);
    EXPECT(number == 0);
    number = 9;
    REFUSED(jorivelune_head_rule(&empty, 0, rule_lows, FEATURES, rule_highs, FEATURES, 5), RADIX);
    REFUSED(jorivelune_head_route(&empty, bottle, FEATURES, &number, &belt), RADIX);
    EXPECT(number == 0 && belt == 0);
    belt = 9;
    REFUSED(jorivelune_head_rule_at(&empty, 0, bytes, FEATURES, more, FEATURES, &belt), RADIX);
    EXPECT(belt == 0 && !holds && memcmp(&empty, &zeros, sizeof empty) == 0);

    // with a shape it still has no bytes
    empty.shape = shape;
    REFUSED(jorivelune_head_clear(&empty), LENGTH);
    REFUSED(jorivelune_head_run(&empty, 0), LENGTH);
    REFUSED(jorivelune_head_lookup(&empty, task, WIDTH, NULL), LENGTH);
    empty.shape = sorter_shape;
    REFUSED(jorivelune_head_rule(&empty, 0, rule_lows, FEATURES, rule_highs, FEATURES, 5), LENGTH);
    REFUSED(jorivelune_head_route(&empty, bottle, FEATURES, NULL, NULL), LENGTH);
    REFUSED(jorivelune_head_rule_at(&empty, 0, bytes, FEATURES, more, FEATURES, NULL), LENGTH);
    return 0;
}

int main(void)
{
    int (*const tests[])(void) = {
        words,
        sizes,
        heads_of_all_shapes,
        lending,
        foreign_bytes,
        written_rows,
        whole_cycle,
        panel,
        lookups,
        rows_by_number,
        written_rules,
        routes,
        rules_by_number,
        refused_rules,
        no_belts,
        no_bytes,
        wrong_lengths,
        other_questions,
        empty_head,
    };

    for (size_t i = 0; i < sizeof tests / sizeof tests[0]; i++) {
        int wrong = tests[i]();
        if (wrong)
            return wrong;
    }
    return 0;
}
