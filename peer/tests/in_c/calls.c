// The calls by their header: document 01's rows M1, M2 and M5, a drift, the cycle that finds it,
// several steps by one call, what the panel is told, coarse cycles, a dead match line and a shorted
// one, inputs up to q, a row that is asked for and committed, belt rules and bottles for them, and
// refusals; and an array on which every answer is another number, so that two that are swapped are
// seen. Each variable for an answer starts with a value that the call does not give.
#include "jorivelune.h"

#include "expect.h"

#include <string.h>

static int whole_cycle(void)
{
    struct jorivelune_shape shape = {2, 3, 1, 3, 2};
    struct jorivelune_record record = {0};
    uint8_t cells[8], lines[2] = {7, 7}, counters[2], flags[2], totals[1] = {7}, matches[2], out[3];
    const uint8_t m1[4] = {5, 2, 1, 6}, m2[4] = {4, 3, 1, 6};
    const uint16_t second[3] = {4, 3, 1}, none[3] = {5, 3, 2};
    size_t count = 9, found = 9, steps = 0, total = 9, first = 9, read = 9;
    bool holds = false;

    TAKEN(jorivelune_clear(&record, shape, cells, 8, lines, 2, counters, 2, flags, 2,
                           totals, 1));
    EXPECT(totals[0] == 0 && lines[0] == 0 && lines[1] == 0);
    TAKEN(jorivelune_program(&record, shape, cells, 8, 0, m1, 3));
    TAKEN(jorivelune_program(&record, shape, cells, 8, 1, m2, 3));
    EXPECT(memcmp(cells, m1, 4) == 0 && memcmp(cells + 4, m2, 4) == 0);
    TAKEN(jorivelune_read(shape, cells, 8, 1, out, 3));
    EXPECT(memcmp(out, m2, 3) == 0);
    TAKEN(jorivelune_sound(shape, cells, 8, 1, &holds));
    EXPECT(holds);

    // 4 3 1 matches the second row alone, 5 3 2 no row
    TAKEN(jorivelune_lookup(shape, cells, 8, lines, 2, second, 3, matches, 2, &count));
    EXPECT(count == 1 && matches[0] == 0 && matches[1] == 1);
    TAKEN(jorivelune_first_match(shape, cells, 8, lines, 2, second, 3, &found));
    EXPECT(found == 1);
    TAKEN(jorivelune_first_match(shape, cells, 8, lines, 2, none, 3, &found));
    EXPECT(found == shape.rows);

    // one cell of the second row drifts; two openings and (q - 1) x W = 7 x 4 steps find it
    TAKEN(jorivelune_drift(shape, cells, 8, 1, 2, 7));
    totals[0] = 7;
    TAKEN(jorivelune_start(&record, shape, 0, counters, 2, flags, 2, totals, 1));
    EXPECT(totals[0] == 0);
    while (record.phase == JORIVELUNE_OPEN) {
        TAKEN(jorivelune_step(&record, shape, cells, 8, lines, 2, counters, 2, flags, 2, totals, 1,
                              matches, 2));
        steps++;
    }
    EXPECT(record.phase == JORIVELUNE_COMPLETE && record.count == 30 && steps == 30);
    EXPECT(flags[0] == 0 && flags[1] == 1 && totals[0] == 1);
    totals[0] = 7;
    TAKEN(jorivelune_run(&record, shape, 0, cells, 8, lines, 2, counters, 2, flags, 2, totals, 1,
                         matches, 2));
    EXPECT(record.count == 30 && flags[0] == 0 && flags[1] == 1 && totals[0] == 1);
    EXPECT(record.skip == 0);

    // the panel: one flagged row, found by reading both flags; none where the total is 0
    TAKEN(jorivelune_panel(shape, flags, 2, totals, 1, &total, &first, &read));
    EXPECT(total == 1 && first == 1 && read == 2);
    const uint8_t none_flagged[1] = {0};
    TAKEN(jorivelune_panel(shape, flags, 2, none_flagged, 1, &total, &first, &read));
    EXPECT(total == 0 && first == shape.rows && read == 0);

    // refusals: no lookup to come, wrong lengths, no such row, a level too high, a shape with b = 0
    struct jorivelune_record before = record;
    REFUSED(jorivelune_step(&record, shape, cells, 8, lines, 2, counters, 2, flags, 2, totals, 1,
                            matches, 2), RECORD);
    REFUSED(jorivelune_start(&record, shape, 0, counters, 1, flags, 2, totals, 1), LENGTH);
    REFUSED(jorivelune_clear(&record, shape, cells, 8, lines, 2, counters, 2, flags, 2,
                             totals, 0), LENGTH);
    REFUSED(jorivelune_start(&record, shape, 0, counters, 2, flags, 2, totals, 0), LENGTH);
    REFUSED(jorivelune_step(&record, shape, cells, 8, lines, 2, counters, 2, flags, 2, totals, 0,
                            matches, 2), LENGTH);
    REFUSED(jorivelune_run(&record, shape, 0, cells, 8, lines, 2, counters, 2, flags, 2, totals, 0,
                           matches, 2), LENGTH);
    EXPECT(memcmp(&before, &record, sizeof record) == 0);
    EXPECT(memcmp(cells, m1, 4) == 0 && flags[0] == 0 && flags[1] == 1 && totals[0] == 1);
    total = first = read = 9;
    REFUSED(jorivelune_panel(shape, flags, 2, totals, 0, &total, &first, &read), LENGTH);
    EXPECT(total == 0 && first == 0 && read == 0);
    REFUSED(jorivelune_sound(shape, cells, 8, 2, &holds), PLACE);
    EXPECT(!holds);
    REFUSED(jorivelune_drift(shape, cells, 8, 0, 0, 8), LEVEL);
    EXPECT(cells[0] == 5);
    shape.digits = 0;
    holds = true;
    REFUSED(jorivelune_sound(shape, cells, 8, 0, &holds), DIGITS);
    EXPECT(!holds);
    return 0;
}

// What is lent to the steps of an array of two rows.
struct lent {
    uint8_t cells[8], lines[2], counters[2], flags[2], totals[1], matches[2];
};

// At most so many steps with these numbers of cells and match bytes.
static uint8_t steps_of(struct jorivelune_record *record, struct jorivelune_shape shape,
                        size_t most, struct lent *lent, size_t cells, size_t matches)
{
    return jorivelune_steps(record, shape, most, lent->cells, cells, lent->lines, 2,
                            lent->counters, 2, lent->flags, 2, lent->totals, 1,
                            lent->matches, matches);
}

// The first row holds 5 2 1 6, the second has drifted to 0 0 4 0, and a cycle is at its openings.
static int begin_cycle(struct jorivelune_record *record, struct jorivelune_shape shape,
                       struct lent *lent)
{
    const uint8_t m1[3] = {5, 2, 1};

    memset(lent, 7, sizeof *lent);
    TAKEN(jorivelune_clear(record, shape, lent->cells, 8, lent->lines, 2, lent->counters, 2,
                           lent->flags, 2, lent->totals, 1));
    TAKEN(jorivelune_program(record, shape, lent->cells, 8, 0, m1, 3));
    TAKEN(jorivelune_drift(shape, lent->cells, 8, 1, 2, 4));
    TAKEN(jorivelune_start(record, shape, 0, lent->counters, 2, lent->flags, 2,
                           lent->totals, 1));
    return 0;
}

// Calls of several steps make the cycle that finds the drifted row: two openings, then each column
// is fed 4, then 2 and 6, then 1, 3, 5 and 7.
static int several_steps(void)
{
    const struct jorivelune_shape shape = {2, 3, 1, 3, 2};
    struct jorivelune_record record = {0};
    struct lent lent, before;

    EXPECT(begin_cycle(&record, shape, &lent) == 0);
    before = lent;
    TAKEN(steps_of(&record, shape, 0, &lent, 8, 2));
    EXPECT(record.count == 0);
    EXPECT(memcmp(&before, &lent, sizeof lent) == 0 && lent.matches[0] == 7);

    // one opening: all rows match it, and there is still no place
    TAKEN(steps_of(&record, shape, 1, &lent, 8, 2));
    EXPECT(record.count == 1 && record.digit == 0 && record.factor == 0);
    EXPECT(lent.matches[0] == 1 && lent.matches[1] == 1 && lent.flags[1] == 0);

    // the other and three lookups: the match bytes are those of the third column
    TAKEN(steps_of(&record, shape, 4, &lent, 8, 2));
    EXPECT(record.count == 5);
    EXPECT(record.digit == 2 && record.column == 3);
    EXPECT(lent.matches[0] == 0 && lent.matches[1] == 1 && lent.totals[0] == 0);
    EXPECT(lent.counters[0] == 1 && lent.counters[1] == 1 && lent.flags[1] == 0);

    // a single step between ends the digit and flags the second row
    TAKEN(jorivelune_step(&record, shape, lent.cells, 8, lent.lines, 2, lent.counters, 2,
                          lent.flags, 2, lent.totals, 1, lent.matches, 2));
    EXPECT(record.count == 6 && lent.counters[0] == 0 && lent.counters[1] == 1);
    EXPECT(lent.flags[0] == 0 && lent.flags[1] == 1 && lent.totals[0] == 1);

    // a byte of the radix or more in a counter counts by its remainder
    lent.counters[0] = 254;
    lent.counters[1] = 255;
    TAKEN(steps_of(&record, shape, 22, &lent, 8, 2));
    EXPECT(record.count == 28);
    EXPECT(lent.matches[0] == 1 && lent.counters[0] == 1 && lent.counters[1] == 0);

    // more than are left end the cycle
    TAKEN(steps_of(&record, shape, SIZE_MAX, &lent, 8, 2));
    EXPECT(record.phase == JORIVELUNE_COMPLETE && record.count == 30);
    EXPECT(lent.matches[0] == 0 && lent.matches[1] == 0 && lent.counters[0] == 0);
    EXPECT(lent.flags[0] == 0 && lent.flags[1] == 1 && lent.totals[0] == 1);
    return 0;
}

// Several steps are refused as a single one is, also where none is asked for: a wrong shape before
// a wrong length, and then a record with no lookup to come.
static int refused_steps(void)
{
    const struct jorivelune_shape shape = {2, 3, 1, 3, 2}, tall = {2, 3, 1, 3, 4097};
    const size_t numbers[4] = {0, 1, 31, SIZE_MAX};
    struct jorivelune_record record = {0}, open;
    struct lent lent, before;

    EXPECT(begin_cycle(&record, shape, &lent) == 0);
    open = record;
    before = lent;
    for (int i = 0; i < 4; i++) {
        record = open;
        REFUSED(steps_of(&record, shape, numbers[i], &lent, 7, 2), LENGTH);
        REFUSED(steps_of(&record, shape, numbers[i], &lent, 8, 1), LENGTH);
        REFUSED(steps_of(&record, tall, numbers[i], &lent, 7, 1), ROWS);
        EXPECT(memcmp(&open, &record, sizeof record) == 0);
        record.count = 2;
        REFUSED(steps_of(&record, shape, numbers[i], &lent, 8, 2), RECORD);
        EXPECT(record.count == 2 && memcmp(&before, &lent, sizeof lent) == 0);
        record.phase = JORIVELUNE_COMPLETE;
        record.count = 30;
        REFUSED(steps_of(&record, shape, numbers[i], &lent, 8, 2), RECORD);
        EXPECT(record.count == 30 && memcmp(&before, &lent, sizeof lent) == 0);
    }
    return 0;
}

// The lowest digit of a cell in the first row changes and the highest of one in the second. Cycles
// that skip 0, 1 and 2 digits take 2 + (8 / 2^z - 1) x 4 steps; the coarse ones see the second
// alone.
static int coarse_cycles(void)
{
    const struct jorivelune_shape shape = {2, 3, 1, 3, 2};
    const uint8_t m1[3] = {5, 2, 1}, flagged[3][2] = {{1, 1}, {0, 1}, {0, 1}};
    const size_t steps[3] = {30, 14, 6};
    const struct jorivelune_record idle = {0};
    struct jorivelune_record record = {0}, before;
    uint8_t cells[8], lines[2], counters[2], flags[2], totals[1], matches[2];

    TAKEN(jorivelune_clear(&record, shape, cells, 8, lines, 2, counters, 2, flags, 2,
                           totals, 1));
    TAKEN(jorivelune_program(&record, shape, cells, 8, 0, m1, 3));
    TAKEN(jorivelune_drift(shape, cells, 8, 0, 2, 0));
    TAKEN(jorivelune_drift(shape, cells, 8, 1, 2, 4));
    for (size_t skip = 0; skip < 3; skip++) {
        TAKEN(jorivelune_start(&record, shape, skip, counters, 2, flags, 2, totals, 1));
        EXPECT(record.digit == 0 && record.skip == skip);
        while (record.phase == JORIVELUNE_OPEN)
            TAKEN(jorivelune_step(&record, shape, cells, 8, lines, 2, counters, 2, flags, 2,
                                  totals, 1, matches, 2));
        EXPECT(record.count == steps[skip] && record.skip == skip);
        EXPECT(record.phase == JORIVELUNE_COMPLETE && memcmp(flags, flagged[skip], 2) == 0);
        memset(flags, 7, 2);
        TAKEN(jorivelune_run(&record, shape, skip, cells, 8, lines, 2, counters, 2, flags, 2,
                             totals, 1, matches, 2));
        EXPECT(record.count == steps[skip] && record.skip == skip);
        EXPECT(record.phase == JORIVELUNE_COMPLETE && memcmp(flags, flagged[skip], 2) == 0);
    }

    // too many digits are refused before a wrong length and after too many rows
    struct jorivelune_shape tall = shape;
    tall.rows = 4097;
    TAKEN(jorivelune_start(&record, shape, 1, counters, 2, flags, 2, totals, 1));
    before = record;
    REFUSED(jorivelune_start(&record, shape, 3, counters, 2, flags, 2, totals, 1), SKIP);
    REFUSED(jorivelune_start(&record, shape, SIZE_MAX, counters, 1, flags, 2, totals, 1), SKIP);
    REFUSED(jorivelune_start(&record, tall, 3, counters, 2, flags, 2, totals, 1), ROWS);
    REFUSED(jorivelune_run(&record, shape, 3, cells, 8, lines, 2, counters, 2, flags, 2, totals, 1,
                           matches, 1), SKIP);
    EXPECT(memcmp(&before, &record, sizeof record) == 0);

    // a step refuses a record with 3 digits to skip, and one whose phase has no name
    record.skip = 3;
    REFUSED(jorivelune_step(&record, shape, cells, 8, lines, 2, counters, 2, flags, 2, totals, 1,
                            matches, 2), RECORD);
    EXPECT(record.skip == 3);
    record = before;
    record.phase = 3;
    REFUSED(jorivelune_step(&record, shape, cells, 8, lines, 2, counters, 2, flags, 2, totals, 1,
                            matches, 2), RECORD);
    EXPECT(record.phase == 3 && record.skip == 1);

    // the cycle goes on all the same; programming makes all words 0
    record = before;
    while (record.phase == JORIVELUNE_OPEN)
        TAKEN(jorivelune_step(&record, shape, cells, 8, lines, 2, counters, 2, flags, 2, totals, 1,
                              matches, 2));
    EXPECT(record.count == 14 && memcmp(flags, flagged[1], 2) == 0);
    TAKEN(jorivelune_program(&record, shape, cells, 8, 0, m1, 3));
    EXPECT(memcmp(&idle, &record, sizeof record) == 0);
    return 0;
}

// M5: the check digit of one decimal digit is not that of the other, so each has to be worked out
// at its own power of ten. A row that is off in either digit is not sound.
static int decimal_digits(void)
{
    const struct jorivelune_shape shape = {10, 2, 2, 1, 1};
    const uint8_t m5[3] = {37, 73, 73};
    struct jorivelune_record record = {0};
    uint8_t cells[3], lines[1], counters[1], flags[1], totals[1];
    bool holds = false;

    TAKEN(jorivelune_clear(&record, shape, cells, 3, lines, 1, counters, 1, flags, 1,
                           totals, 1));
    TAKEN(jorivelune_program(&record, shape, cells, 3, 0, m5, 1));
    EXPECT(memcmp(cells, m5, 3) == 0);
    TAKEN(jorivelune_sound(shape, cells, 3, 0, &holds));
    EXPECT(holds);
    TAKEN(jorivelune_drift(shape, cells, 3, 0, 2, 74));
    TAKEN(jorivelune_sound(shape, cells, 3, 0, &holds));
    EXPECT(!holds);
    holds = true;
    TAKEN(jorivelune_drift(shape, cells, 3, 0, 2, 83));
    TAKEN(jorivelune_sound(shape, cells, 3, 0, &holds));
    EXPECT(!holds);
    return 0;
}

// The first of two equal rows has a dead line. It matches nothing, first match passes it over, and
// the first opening of a cycle flags it, though its cells are as they were written.
static int dead_line(void)
{
    const struct jorivelune_shape shape = {2, 3, 1, 3, 2};
    const uint8_t m1[3] = {5, 2, 1}, dead[2] = {1, 0}, foreign[2] = {3, 255};
    const uint16_t inputs[3] = {5, 2, 1};
    struct jorivelune_record record = {0};
    size_t count = 9, found = 9;
    uint8_t cells[8], lines[2], counters[2], flags[2], totals[1], matches[2] = {7, 7};
    bool holds = false;

    TAKEN(jorivelune_clear(&record, shape, cells, 8, lines, 2, counters, 2, flags, 2,
                           totals, 1));
    TAKEN(jorivelune_program(&record, shape, cells, 8, 0, m1, 3));
    TAKEN(jorivelune_program(&record, shape, cells, 8, 1, m1, 3));
    TAKEN(jorivelune_first_match(shape, cells, 8, lines, 2, inputs, 3, &found));
    EXPECT(found == 0);
    TAKEN(jorivelune_line(shape, lines, 2, 0, 1));
    EXPECT(memcmp(lines, dead, 2) == 0);
    TAKEN(jorivelune_first_match(shape, cells, 8, lines, 2, inputs, 3, &found));
    EXPECT(found == 1);
    TAKEN(jorivelune_lookup(shape, cells, 8, lines, 2, inputs, 3, matches, 2, &count));
    EXPECT(count == 1 && matches[0] == 0 && matches[1] == 1);

    // the line call's questions: a byte above 2 is refused last
    REFUSED(jorivelune_line(shape, lines, 2, 1, 3), LINE);
    REFUSED(jorivelune_line(shape, lines, 2, 1, 255), LINE);
    REFUSED(jorivelune_line(shape, lines, 2, 2, 3), PLACE);
    REFUSED(jorivelune_line(shape, lines, 1, 2, 3), LENGTH);
    struct jorivelune_shape tall = shape;
    tall.rows = 4097;
    REFUSED(jorivelune_line(tall, lines, 1, 2, 3), ROWS);
    EXPECT(memcmp(lines, dead, 2) == 0);

    // the openings have no place, flag the row and leave the counters; the first vector comes next
    TAKEN(jorivelune_start(&record, shape, 0, counters, 2, flags, 2, totals, 1));
    EXPECT(record.phase == JORIVELUNE_OPEN && record.count == 0);
    EXPECT(record.check == 0 && record.digit == 0);
    EXPECT(record.column == 0 && record.factor == 0);
    counters[0] = 7;
    TAKEN(jorivelune_step(&record, shape, cells, 8, lines, 2, counters, 2, flags, 2, totals, 1,
                          matches, 2));
    EXPECT(matches[0] == 0 && matches[1] == 1 && flags[0] == 1 && flags[1] == 0);
    EXPECT(counters[0] == 7 && counters[1] == 0 && totals[0] == 1);
    EXPECT(record.phase == JORIVELUNE_OPEN && record.count == 1);
    EXPECT(record.digit == 0 && record.factor == 0);
    TAKEN(jorivelune_step(&record, shape, cells, 8, lines, 2, counters, 2, flags, 2, totals, 1,
                          matches, 2));
    EXPECT(matches[0] == 0 && matches[1] == 0 && flags[0] == 1 && flags[1] == 0);
    EXPECT(counters[0] == 7 && counters[1] == 0 && totals[0] == 1);
    EXPECT(record.count == 2 && record.digit == 2 && record.factor == 1);

    // whole cycles flag it until its line is sound again; programming does not help
    TAKEN(jorivelune_run(&record, shape, 0, cells, 8, lines, 2, counters, 2, flags, 2, totals, 1,
                         matches, 2));
    EXPECT(record.count == 30 && flags[0] == 1 && flags[1] == 0 && totals[0] == 1);
    TAKEN(jorivelune_sound(shape, cells, 8, 0, &holds));
    EXPECT(holds);
    TAKEN(jorivelune_program(&record, shape, cells, 8, 0, m1, 3));
    TAKEN(jorivelune_run(&record, shape, 2, cells, 8, lines, 2, counters, 2, flags, 2, totals, 1,
                         matches, 2));
    EXPECT(record.count == 6 && flags[0] == 1 && flags[1] == 0);
    TAKEN(jorivelune_line(shape, lines, 2, 0, 0));
    EXPECT(lines[0] == 0);
    TAKEN(jorivelune_run(&record, shape, 0, cells, 8, lines, 2, counters, 2, flags, 2, totals, 1,
                         matches, 2));
    EXPECT(flags[0] == 0 && flags[1] == 0 && totals[0] == 0);

    // bytes that no call sets are dead too, and stay
    memcpy(lines, foreign, 2);
    TAKEN(jorivelune_first_match(shape, cells, 8, lines, 2, inputs, 3, &found));
    EXPECT(found == shape.rows);
    TAKEN(jorivelune_run(&record, shape, 0, cells, 8, lines, 2, counters, 2, flags, 2, totals, 1,
                         matches, 2));
    EXPECT(flags[0] == 1 && flags[1] == 1 && totals[0] == 2 && memcmp(lines, foreign, 2) == 0);

    // a wrong length is refused by each call that is lent the lines
    REFUSED(jorivelune_clear(&record, shape, cells, 8, lines, 1, counters, 2, flags, 2,
                             totals, 1), LENGTH);
    REFUSED(jorivelune_step(&record, shape, cells, 8, lines, 1, counters, 2, flags, 2, totals, 1,
                            matches, 2), LENGTH);
    REFUSED(jorivelune_run(&record, shape, 0, cells, 8, lines, 1, counters, 2, flags, 2, totals, 1,
                           matches, 2), LENGTH);
    REFUSED(jorivelune_lookup(shape, cells, 8, lines, 1, inputs, 3, matches, 2, &count), LENGTH);
    REFUSED(jorivelune_first_match(shape, cells, 8, lines, 1, inputs, 3, &found), LENGTH);
    EXPECT(count == 0 && found == 0 && memcmp(lines, foreign, 2) == 0);
    return 0;
}

// Of two rows the second has a shorted line. It matches everything, q too, and the second opening
// of a cycle flags it.
static int shorted_line(void)
{
    const struct jorivelune_shape shape = {2, 3, 1, 3, 2};
    const uint8_t m1[3] = {5, 2, 1};
    const uint16_t beyond[3] = {8, 0, 0}, later[3] = {0, 0, 8}, above[3] = {6, 0, 0};
    struct jorivelune_record record = {0};
    struct lent lent;
    size_t count = 9, found = 9;

    EXPECT(begin_cycle(&record, shape, &lent) == 0);
    TAKEN(jorivelune_program(&record, shape, lent.cells, 8, 0, m1, 3));
    TAKEN(jorivelune_line(shape, lent.lines, 2, 1, 2));
    REFUSED(jorivelune_line(shape, lent.lines, 2, 1, 3), LINE);
    EXPECT(lent.lines[0] == 0 && lent.lines[1] == 2);
    TAKEN(jorivelune_lookup(shape, lent.cells, 8, lent.lines, 2, beyond, 3, lent.matches, 2,
                            &count));
    EXPECT(count == 1 && lent.matches[0] == 0 && lent.matches[1] == 1);
    TAKEN(jorivelune_first_match(shape, lent.cells, 8, lent.lines, 2, above, 3, &found));
    EXPECT(found == 1);
    TAKEN(jorivelune_first_match(shape, lent.cells, 8, lent.lines, 2, later, 3, &found));
    EXPECT(found == 1);

    // a cell of q or more answers no to q, and yes to any input below
    lent.cells[0] = 200;
    TAKEN(jorivelune_lookup(shape, lent.cells, 8, lent.lines, 2, beyond, 3, lent.matches, 2,
                            &count));
    EXPECT(count == 1 && lent.matches[0] == 0 && lent.matches[1] == 1);
    TAKEN(jorivelune_first_match(shape, lent.cells, 8, lent.lines, 2, beyond, 3, &found));
    EXPECT(found == 1);
    TAKEN(jorivelune_first_match(shape, lent.cells, 8, lent.lines, 2, above, 3, &found));
    EXPECT(found == 0);
    lent.cells[0] = 5;

    // the first opening flags none, the second the shorted row, and no later step another one
    TAKEN(jorivelune_start(&record, shape, 0, lent.counters, 2, lent.flags, 2, lent.totals, 1));
    TAKEN(steps_of(&record, shape, 1, &lent, 8, 2));
    EXPECT(lent.matches[0] == 1 && lent.matches[1] == 1);
    EXPECT(lent.flags[0] == 0 && lent.flags[1] == 0 && record.count == 1);
    TAKEN(steps_of(&record, shape, 1, &lent, 8, 2));
    EXPECT(lent.matches[0] == 0 && lent.matches[1] == 1);
    EXPECT(lent.flags[0] == 0 && lent.flags[1] == 1 && lent.totals[0] == 1);
    EXPECT(lent.counters[0] == 0 && lent.counters[1] == 0 && record.count == 2);
    TAKEN(steps_of(&record, shape, SIZE_MAX, &lent, 8, 2));
    EXPECT(record.phase == JORIVELUNE_COMPLETE && record.count == 30);
    EXPECT(lent.flags[0] == 0 && lent.flags[1] == 1);
    return 0;
}

// An input above q is refused in every column, also one that is 0 or a level where it is cut to a
// byte; so is q where a level is wanted.
static int inputs_above(void)
{
    const struct jorivelune_shape shape = {2, 3, 1, 3, 2}, most = {2, 8, 1, 1, 1};
    const uint16_t numbers[6] = {9, 255, 256, 261, 512, UINT16_MAX}, q[1] = {256}, over[1] = {257};
    const uint8_t levels[3] = {0, 8, 0}, highest[2] = {255, 255}, sound = 0;
    struct jorivelune_record record = {0};
    struct lent lent;
    size_t count = 9, found = 9;

    EXPECT(begin_cycle(&record, shape, &lent) == 0);
    for (int i = 0; i < 6; i++)
        for (int column = 0; column < 3; column++) {
            uint16_t inputs[3] = {0, 0, 0};
            inputs[column] = numbers[i];
            count = found = 9;
            REFUSED(jorivelune_lookup(shape, lent.cells, 8, lent.lines, 2, inputs, 3, lent.matches,
                                      2, &count), LEVEL);
            REFUSED(jorivelune_first_match(shape, lent.cells, 8, lent.lines, 2, inputs, 3, &found),
                    LEVEL);
            EXPECT(count == 0 && found == 0 && lent.matches[0] == 7 && lent.matches[1] == 7);
        }
    REFUSED(jorivelune_program(&record, shape, lent.cells, 8, 0, levels, 3), LEVEL);
    REFUSED(jorivelune_drift(shape, lent.cells, 8, 0, 0, 8), LEVEL);

    // of 256 levels q is no byte any more
    TAKEN(jorivelune_lookup(most, highest, 2, &sound, 1, q, 1, lent.matches, 1, &count));
    EXPECT(count == 0 && lent.matches[0] == 0);
    REFUSED(jorivelune_lookup(most, highest, 2, &sound, 1, over, 1, lent.matches, 1, &count),
            LEVEL);
    TAKEN(jorivelune_first_match(most, highest, 2, &sound, 1, q, 1, &found));
    EXPECT(found == most.rows);
    return 0;
}

// A row that holds 5 2 1 is asked for as 4 3 1 while a cycle is open, which goes on; the first two
// cells would change. What the ask wrote is committed, and leaves what programming leaves.
static int asked_row(void)
{
    const struct jorivelune_shape shape = {2, 3, 1, 3, 2};
    const uint8_t m1[4] = {5, 2, 1, 6}, m2[4] = {4, 3, 1, 6};
    const struct jorivelune_record idle = {0};
    struct jorivelune_record record = {0}, before;
    size_t changed = 9;
    uint8_t cells[8], lines[2], counters[2], flags[2], totals[1], matches[2];
    uint8_t finished[4] = {7, 7, 7, 7}, left[4];

    TAKEN(jorivelune_clear(&record, shape, cells, 8, lines, 2, counters, 2, flags, 2,
                           totals, 1));
    TAKEN(jorivelune_program(&record, shape, cells, 8, 0, m1, 3));
    TAKEN(jorivelune_line(shape, lines, 2, 0, 1));
    TAKEN(jorivelune_start(&record, shape, 1, counters, 2, flags, 2, totals, 1));
    TAKEN(jorivelune_step(&record, shape, cells, 8, lines, 2, counters, 2, flags, 2, totals, 1,
                          matches, 2));
    before = record;
    TAKEN(jorivelune_ask(shape, cells, 8, 0, m2, 3, finished, 4, &changed));
    EXPECT(changed == 2 && memcmp(finished, m2, 4) == 0);
    EXPECT(memcmp(cells, m1, 4) == 0 && memcmp(&before, &record, sizeof record) == 0);
    TAKEN(jorivelune_step(&record, shape, cells, 8, lines, 2, counters, 2, flags, 2, totals, 1,
                          matches, 2));

    // a refused ask leaves the buffer and says 0: a level too high, no such row, wrong lengths
    const uint8_t high[3] = {5, 2, 8};
    REFUSED(jorivelune_ask(shape, cells, 8, 1, high, 3, finished, 4, &changed), LEVEL);
    EXPECT(changed == 0 && memcmp(finished, m2, 4) == 0);
    changed = 9;
    REFUSED(jorivelune_ask(shape, cells, 8, 2, high, 3, finished, 4, &changed), PLACE);
    EXPECT(changed == 0);
    REFUSED(jorivelune_ask(shape, cells, 8, 2, high, 3, finished, 3, &changed), LENGTH);
    REFUSED(jorivelune_ask(shape, cells, 8, 2, high, 2, finished, 4, &changed), LENGTH);
    REFUSED(jorivelune_ask(shape, cells, 7, 2, high, 3, finished, 4, &changed), LENGTH);
    EXPECT(memcmp(finished, m2, 4) == 0);

    // a refused commit: not sound, a byte too high, no such row, wrong lengths
    const uint8_t m3[4] = {5, 2, 0, 6}, above[4] = {8, 0, 0, 0};
    before = record;
    REFUSED(jorivelune_commit(&record, shape, cells, 8, 0, m3, 4), FINISHED);
    REFUSED(jorivelune_commit(&record, shape, cells, 8, 0, above, 4), LEVEL);
    REFUSED(jorivelune_commit(&record, shape, cells, 8, 2, above, 4), PLACE);
    REFUSED(jorivelune_commit(&record, shape, cells, 8, 2, above, 3), LENGTH);
    REFUSED(jorivelune_commit(&record, shape, cells, 7, 2, above, 4), LENGTH);
    EXPECT(memcmp(cells, m1, 4) == 0 && memcmp(&before, &record, sizeof record) == 0);

    // the commit: the row and an idle record, and nothing else
    EXPECT(flags[0] == 1 && totals[0] == 1);
    memcpy(left, cells + 4, 4);
    TAKEN(jorivelune_commit(&record, shape, cells, 8, 0, finished, 4));
    EXPECT(memcmp(cells, m2, 4) == 0 && memcmp(cells + 4, left, 4) == 0);
    EXPECT(memcmp(&idle, &record, sizeof record) == 0 && memcmp(finished, m2, 4) == 0);
    EXPECT(flags[0] == 1 && flags[1] == 0 && totals[0] == 1 && lines[0] == 1);
    changed = 9;
    TAKEN(jorivelune_ask(shape, cells, 8, 0, m2, 3, finished, 4, &changed));
    EXPECT(changed == 0);
    TAKEN(jorivelune_line(shape, lines, 2, 0, 0));
    TAKEN(jorivelune_run(&record, shape, 0, cells, 8, lines, 2, counters, 2, flags, 2, totals, 1,
                         matches, 2));
    EXPECT(flags[0] == 0 && flags[1] == 0 && totals[0] == 0);
    return 0;
}

// What is lent to the router of three rows, four rule columns and a check column.
struct lent_router {
    uint8_t cells[15], lines[3], belts[3];
};

static const struct jorivelune_shape sorter = {2, 3, 1, 4, 3};

// A rule of two features for a row.
static uint8_t write_rule(struct jorivelune_record *record, struct lent_router *lent, size_t row,
                          const uint8_t lows[2], const uint8_t highs[2], uint8_t belt)
{
    return jorivelune_rule(record, sorter, lent->cells, 15, lent->belts, 3, row, lows, 2, highs, 2,
                           belt);
}

static uint8_t find_route(const struct lent_router *lent, const uint8_t values[2], size_t *found,
                          uint8_t *belt)
{
    return jorivelune_route(sorter, lent->cells, 15, lent->lines, 3, lent->belts, 3, values, 2,
                            found, belt);
}

// The fresh array with 50, 51 and 52 for belts, which the clear keeps.
static int begin_router(struct jorivelune_record *record, struct lent_router *lent)
{
    const uint8_t belts[3] = {50, 51, 52};
    uint8_t counters[3], flags[3], totals[1];

    memset(lent, 7, sizeof *lent);
    memcpy(lent->belts, belts, 3);
    TAKEN(jorivelune_clear(record, sorter, lent->cells, 15, lent->lines, 3, counters, 3, flags, 3,
                           totals, 1));
    EXPECT(memcmp(lent->belts, belts, 3) == 0);
    return 0;
}

// Two rules, of which the second holds every bottle: of lows 2 0 and highs 5 3, and of 0 0 and 7 7.
static int belt_rules(void)
{
    const uint8_t lows[2] = {2, 0}, highs[2] = {5, 3}, least[2] = {0, 0}, most[2] = {7, 7};
    const uint8_t first[2] = {2, 3}, second[2] = {6, 3}, plain[4] = {7, 7, 7, 7};
    const uint8_t rows[15] = {5, 5, 3, 7, 4, 7, 7, 7, 7, 0, 0, 0, 0, 0, 0};
    const struct jorivelune_record idle = {0};
    struct jorivelune_record record = {0};
    struct lent_router lent;
    uint8_t counters[3], flags[3], totals[1], read_lows[2] = {9, 9}, read_highs[2] = {9, 9};
    uint8_t belt = 99;
    size_t found = 9;

    // no row of the fresh array holds a bottle, and its rows are read as 7 to 0
    EXPECT(begin_router(&record, &lent) == 0);
    TAKEN(find_route(&lent, least, &found, &belt));
    EXPECT(found == sorter.rows && belt == 0);
    TAKEN(jorivelune_rule_at(sorter, lent.cells, 15, lent.belts, 3, 2, read_lows, 2, read_highs, 2,
                             &belt));
    EXPECT(memcmp(read_lows, most, 2) == 0 && memcmp(read_highs, least, 2) == 0 && belt == 52);

    // a rule is a programming: the record becomes idle
    TAKEN(jorivelune_start(&record, sorter, 1, counters, 3, flags, 3, totals, 1));
    TAKEN(write_rule(&record, &lent, 0, lows, highs, 7));
    EXPECT(memcmp(&idle, &record, sizeof record) == 0);
    TAKEN(write_rule(&record, &lent, 1, least, most, 9));
    EXPECT(memcmp(lent.cells, rows, 15) == 0);
    EXPECT(lent.belts[0] == 7 && lent.belts[1] == 9 && lent.belts[2] == 52);
    TAKEN(find_route(&lent, first, &found, &belt));
    EXPECT(found == 0 && belt == 7);
    TAKEN(find_route(&lent, second, &found, &belt));
    EXPECT(found == 1 && belt == 9);
    TAKEN(jorivelune_rule_at(sorter, lent.cells, 15, lent.belts, 3, 0, read_lows, 2, read_highs, 2,
                             &belt));
    EXPECT(memcmp(read_lows, lows, 2) == 0 && memcmp(read_highs, highs, 2) == 0 && belt == 7);

    // a drift takes the bottle away from its rule, and the drift back returns it
    TAKEN(jorivelune_drift(sorter, lent.cells, 15, 0, 2, 2));
    TAKEN(find_route(&lent, first, &found, &belt));
    EXPECT(found == 1 && belt == 9);
    TAKEN(jorivelune_drift(sorter, lent.cells, 15, 0, 2, 3));
    TAKEN(find_route(&lent, first, &found, &belt));
    EXPECT(found == 0 && belt == 7);

    // a dead line is passed over; a cell of 8 or more holds any value, and is read as it stands
    TAKEN(jorivelune_line(sorter, lent.lines, 3, 0, 1));
    TAKEN(find_route(&lent, first, &found, &belt));
    EXPECT(found == 1 && belt == 9);
    lent.cells[6] = lent.cells[7] = 200;
    TAKEN(find_route(&lent, second, &found, &belt));
    EXPECT(found == 1 && belt == 9);
    TAKEN(jorivelune_rule_at(sorter, lent.cells, 15, lent.belts, 3, 1, read_lows, 2, read_highs, 2,
                             &belt));
    EXPECT(read_lows[0] == 0 && read_lows[1] == 0);
    EXPECT(read_highs[0] == 7 && read_highs[1] == 200 && belt == 9);

    // a row that is programmed keeps the belt that stands there
    TAKEN(jorivelune_line(sorter, lent.lines, 3, 1, 1));
    TAKEN(jorivelune_program(&record, sorter, lent.cells, 15, 2, plain, 4));
    TAKEN(find_route(&lent, second, &found, &belt));
    EXPECT(found == 2 && belt == 52);

    // a shorted row takes every bottle, whatever its ranges
    TAKEN(jorivelune_line(sorter, lent.lines, 3, 0, 2));
    TAKEN(find_route(&lent, second, &found, &belt));
    EXPECT(found == 0 && belt == 7);
    return 0;
}

// A rule is refused in the order of the questions, with all that fails later wrong too.
static int refused_rules(void)
{
    const uint8_t lows[3] = {3, 0, 0}, highs[3] = {2, 3, 3}, above[3] = {8, 3, 3};
    const uint8_t later_above[2] = {2, 8};
    const struct jorivelune_shape tall = {2, 3, 1, 3, 4097}, odd = {2, 3, 1, 3, 3};
    const size_t lengths[5][4] = {
        {14, 3, 2, 2}, {15, 2, 2, 2}, {15, 3, 1, 2}, {15, 3, 2, 3}, {15, 3, 0, 0}};
    struct jorivelune_record record = {0}, open;
    struct lent_router lent, before;

    EXPECT(begin_router(&record, &lent) == 0);
    record.phase = JORIVELUNE_OPEN;
    open = record;
    before = lent;
    REFUSED(jorivelune_rule(&record, tall, lent.cells, 14, lent.belts, 2, 3, lows, 1, above, 1, 9),
            ROWS);
    REFUSED(jorivelune_rule(&record, odd, lent.cells, 14, lent.belts, 2, 3, lows, 1, above, 1, 9),
            FEATURES);
    REFUSED(jorivelune_rule(&record, odd, lent.cells, 12, lent.belts, 3, 0, lows, 1, highs, 1, 9),
            FEATURES);
    for (int i = 0; i < 5; i++) {
        const size_t *each = lengths[i];
        REFUSED(jorivelune_rule(&record, sorter, lent.cells, each[0], lent.belts, each[1], 3,
                                lows, each[2], above, each[3], 9), LENGTH);
    }
    REFUSED(write_rule(&record, &lent, 3, lows, above, 9), PLACE);
    REFUSED(write_rule(&record, &lent, 2, above, highs, 9), LEVEL);
    REFUSED(write_rule(&record, &lent, 2, lows, above, 9), LEVEL);
    REFUSED(write_rule(&record, &lent, 2, lows, later_above, 9), LEVEL);
    REFUSED(write_rule(&record, &lent, 2, lows, highs, 9), RANGE);
    EXPECT(memcmp(&open, &record, sizeof record) == 0 && memcmp(&before, &lent, sizeof lent) == 0);
    return 0;
}

// Refused bottles and rules that are not read answer 0, and the buffers stay.
static int refused_routes(void)
{
    const uint8_t values[3] = {0, 8, 0};
    const struct jorivelune_shape tall = {2, 3, 1, 3, 4097}, odd = {2, 3, 1, 3, 3};
    const size_t lengths[5][4] = {
        {14, 3, 3, 2}, {15, 2, 3, 2}, {15, 3, 2, 2}, {15, 3, 3, 1}, {15, 3, 3, 3}};
    const size_t read_lengths[5][4] = {
        {14, 3, 2, 2}, {15, 2, 2, 2}, {15, 3, 1, 2}, {15, 3, 2, 3}, {15, 3, 0, 0}};
    struct jorivelune_record record = {0};
    struct lent_router lent;
    uint8_t belt = 99, lows[3] = {71, 72, 73}, highs[3] = {81, 82, 83};
    size_t found = 9;

    EXPECT(begin_router(&record, &lent) == 0);
    REFUSED(jorivelune_route(tall, lent.cells, 14, lent.lines, 3, lent.belts, 3, values, 1, &found,
                             &belt), ROWS);
    EXPECT(found == 0 && belt == 0);
    found = belt = 9;
    REFUSED(jorivelune_route(odd, lent.cells, 14, lent.lines, 3, lent.belts, 3, values, 1, &found,
                             &belt), FEATURES);
    EXPECT(found == 0 && belt == 0);
    for (int i = 0; i < 5; i++) {
        const size_t *each = lengths[i];
        found = belt = 9;
        REFUSED(jorivelune_route(sorter, lent.cells, each[0], lent.lines, each[1], lent.belts,
                                 each[2], values, each[3], &found, &belt), LENGTH);
        EXPECT(found == 0 && belt == 0);
    }
    found = belt = 9;
    REFUSED(find_route(&lent, values, &found, &belt), LEVEL);
    EXPECT(found == 0 && belt == 0);

    belt = 9;
    REFUSED(jorivelune_rule_at(tall, lent.cells, 14, lent.belts, 3, 3, lows, 1, highs, 1, &belt),
            ROWS);
    EXPECT(belt == 0);
    belt = 9;
    REFUSED(jorivelune_rule_at(odd, lent.cells, 14, lent.belts, 3, 3, lows, 1, highs, 1, &belt),
            FEATURES);
    EXPECT(belt == 0);
    for (int i = 0; i < 5; i++) {
        const size_t *each = read_lengths[i];
        belt = 9;
        REFUSED(jorivelune_rule_at(sorter, lent.cells, each[0], lent.belts, each[1], 3,
                                   lows, each[2], highs, each[3], &belt), LENGTH);
        EXPECT(belt == 0);
    }
    belt = 9;
    REFUSED(jorivelune_rule_at(sorter, lent.cells, 15, lent.belts, 3, 3, lows, 2, highs, 2, &belt),
            PLACE);
    EXPECT(belt == 0 && lows[0] == 71 && lows[1] == 72 && highs[0] == 81 && highs[1] == 82);
    return 0;
}

// An array whose five numbers, sizes and answers are all different. Its check columns follow seven
// rule columns with the ones of 7, 11, 13, 14, 19, 21 and 22, so W is 26.
enum { ROWS = 600, CELLS = 7200, BLOCKS = 10, WIDTH = 7, COLUMNS = 12 };

static const struct jorivelune_shape large = {2, 6, 3, WIDTH, ROWS};
static const uint8_t rule[COLUMNS] = {1, 2, 3, 4, 5, 6, 8, 3, 10, 8, 5, 11};
static const uint16_t task[WIDTH] = {1, 2, 3, 4, 5, 6, 8}, beyond[WIDTH] = {0, 0, 0, 0, 0, 0, 64};
static uint8_t cells[CELLS], lines[ROWS], counters[ROWS], flags[ROWS], totals[BLOCKS];
static uint8_t matches[ROWS];

static uint8_t clear_large(struct jorivelune_record *record)
{
    return jorivelune_clear(record, large, cells, CELLS, lines, ROWS, counters, ROWS, flags, ROWS,
                            totals, BLOCKS);
}

static int different_sizes(void)
{
    struct jorivelune_shape high = large;
    size_t q = 9, r = 9, n = 9, of_cells = 9, blocks = 9, steps = 9;

    TAKEN(jorivelune_sizes(large, 0, &q, &r, &n, &of_cells, &blocks, &steps));
    EXPECT(q == 64 && r == 5 && n == COLUMNS);
    EXPECT(of_cells == CELLS && blocks == BLOCKS && steps == 2 + 63 * 26);
    TAKEN(jorivelune_sizes(large, 1, &q, &r, &n, &of_cells, &blocks, &steps));
    EXPECT(q == 64 && steps == 2 + 31 * 26);

    // refused: all six are 0; the digits to skip are asked for last
    REFUSED(jorivelune_sizes(large, 6, &q, &r, &n, &of_cells, &blocks, &steps), SKIP);
    EXPECT(q == 0 && r == 0 && n == 0 && of_cells == 0 && blocks == 0 && steps == 0);
    high.rows = 4097;
    q = r = n = of_cells = blocks = steps = 9;
    REFUSED(jorivelune_sizes(high, 6, &q, &r, &n, &of_cells, &blocks, &steps), ROWS);
    EXPECT(q == 0 && r == 0 && n == 0 && of_cells == 0 && blocks == 0 && steps == 0);
    return 0;
}

// A coarse cycle after 358 steps, when the seven words of its record are all different: of the
// last check row, digits 5 and 4 are done, and of digit 3 all columns but the last.
static int different_words(void)
{
    struct jorivelune_record record = {9, 9, 9, 9, 9, 9, 9};

    TAKEN(clear_large(&record));
    EXPECT(record.phase == JORIVELUNE_IDLE && record.count == 0 && record.skip == 0);
    TAKEN(jorivelune_start(&record, large, 2, counters, ROWS, flags, ROWS, totals, BLOCKS));
    TAKEN(jorivelune_steps(&record, large, 358, cells, CELLS, lines, ROWS, counters, ROWS,
                           flags, ROWS, totals, BLOCKS, matches, ROWS));
    EXPECT(record.phase == JORIVELUNE_OPEN && record.check == 4 && record.digit == 3);
    EXPECT(record.column == 11 && record.factor == 5);
    EXPECT(record.count == 358 && record.skip == 2);
    return 0;
}

// Three cells and two lines go wrong, and a cycle finds the five rows. The first lies in the second
// block, as the ninth of its rows; the last and the shorted one alone match the last lookup, of 63
// in column 11.
static int different_panel(struct jorivelune_record *record)
{
    size_t total = 1, first = 1, read = 1;

    TAKEN(jorivelune_drift(large, cells, CELLS, 72, 0, 1));
    TAKEN(jorivelune_drift(large, cells, CELLS, 130, 11, 2));
    TAKEN(jorivelune_drift(large, cells, CELLS, 599, 11, 63));
    TAKEN(jorivelune_line(large, lines, ROWS, 73, 1));
    TAKEN(jorivelune_line(large, lines, ROWS, 598, 2));
    EXPECT(cells[72 * COLUMNS] == 1 && cells[130 * COLUMNS + 11] == 2);
    EXPECT(cells[599 * COLUMNS + 11] == 63 && lines[73] == 1 && lines[598] == 2);
    TAKEN(jorivelune_run(record, large, 0, cells, CELLS, lines, ROWS, counters, ROWS, flags, ROWS,
                         totals, BLOCKS, matches, ROWS));
    EXPECT(record->phase == JORIVELUNE_COMPLETE && record->count == 2 + 63 * 26);
    EXPECT(matches[599] == 1 && matches[598] == 1 && matches[597] == 0 && counters[599] == 0);
    TAKEN(jorivelune_panel(large, flags, ROWS, totals, BLOCKS, &total, &first, &read));
    EXPECT(total == 5 && first == 72 && read == 9);
    return 0;
}

// Nine rows match and the shorted one, and then one fewer, since the line of the first is dead. Of
// an input of q the shorted one alone is found.
static int different_matches(struct jorivelune_record *record)
{
    size_t count = 0, found = 0;

    for (size_t row = 150; row < 159; row++)
        TAKEN(jorivelune_program(record, large, cells, CELLS, row, rule, WIDTH));
    TAKEN(jorivelune_lookup(large, cells, CELLS, lines, ROWS, task, WIDTH, matches, ROWS, &count));
    EXPECT(count == 10 && matches[149] == 0 && matches[150] == 1 && matches[158] == 1);
    TAKEN(jorivelune_line(large, lines, ROWS, 150, 1));
    TAKEN(jorivelune_lookup(large, cells, CELLS, lines, ROWS, task, WIDTH, matches, ROWS, &count));
    EXPECT(count == 9 && matches[150] == 0 && matches[158] == 1 && matches[159] == 0);
    TAKEN(jorivelune_first_match(large, cells, CELLS, lines, ROWS, task, WIDTH, &found));
    EXPECT(found == 151);
    TAKEN(jorivelune_first_match(large, cells, CELLS, lines, ROWS, beyond, WIDTH, &found));
    EXPECT(found == 598);
    return 0;
}

// Of the twelve cells of a row one stands already as it is asked for.
static int different_changes(struct jorivelune_record *record)
{
    uint8_t finished[COLUMNS] = {0}, out[WIDTH] = {0};
    size_t changed = 0;
    bool holds = true;

    TAKEN(jorivelune_drift(large, cells, CELLS, 300, 3, 4));
    TAKEN(jorivelune_ask(large, cells, CELLS, 300, rule, WIDTH, finished, COLUMNS, &changed));
    EXPECT(changed == 11 && memcmp(finished, rule, COLUMNS) == 0);
    TAKEN(jorivelune_commit(record, large, cells, CELLS, 301, finished, COLUMNS));
    EXPECT(memcmp(cells + 301 * COLUMNS, rule, COLUMNS) == 0);
    TAKEN(jorivelune_read(large, cells, CELLS, 301, out, WIDTH));
    EXPECT(memcmp(out, rule, WIDTH) == 0);
    TAKEN(jorivelune_sound(large, cells, CELLS, 300, &holds));
    EXPECT(!holds);
    TAKEN(jorivelune_sound(large, cells, CELLS, 301, &holds));
    EXPECT(holds);
    return 0;
}

static int different_answers(void)
{
    struct jorivelune_record record = {0};
    int wrong = different_sizes();
    if (!wrong)
        wrong = different_words();
    TAKEN(clear_large(&record));
    if (!wrong)
        wrong = different_panel(&record);
    if (!wrong)
        wrong = different_matches(&record);
    return wrong ? wrong : different_changes(&record);
}

int main(void)
{
    int wrong = whole_cycle();
    if (!wrong)
        wrong = several_steps();
    if (!wrong)
        wrong = refused_steps();
    if (!wrong)
        wrong = coarse_cycles();
    if (!wrong)
        wrong = dead_line();
    if (!wrong)
        wrong = shorted_line();
    if (!wrong)
        wrong = inputs_above();
    if (!wrong)
        wrong = asked_row();
    if (!wrong)
        wrong = belt_rules();
    if (!wrong)
        wrong = refused_rules();
    if (!wrong)
        wrong = refused_routes();
    if (!wrong)
        wrong = different_answers();
    return wrong ? wrong : decimal_digits();
}
