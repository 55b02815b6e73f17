// A fitter's year on a small sorting head: a rule book in ranges, bottles, a threshold that drifts, the cycle that
// finds it, a row in raw levels that is seen before it goes live, a dead and a shorted match line, and the shutdown.
// `examples/run_head` builds and runs it.
#include "jorivelune_head.h"

#include <inttypes.h>
#include <stdio.h>
#include <stdlib.h>

enum { ROWS = 6, FEATURES = 2, WIDTH = 2 * FEATURES, COLUMNS = 7 };

// A rule: of two features with values from 0 to 7 the ranges, from each low to its high, and the belt for the bottles
// that are in both. The first row whose rule holds a bottle takes it.
struct rule {
    uint8_t lows[FEATURES], highs[FEATURES], belt;
};

static const struct rule book[ROWS] = {
    {{0, 0}, {1, 7}, 1}, {{2, 0}, {3, 3}, 2}, {{2, 2}, {5, 5}, 3},
    {{4, 0}, {7, 4}, 4}, {{3, 3}, {7, 7}, 5}, {{0, 0}, {7, 7}, 9},
};

static uint8_t memory[JORIVELUNE_HEAD_BYTES(ROWS, WIDTH)];

// Every call answers 0 or the number of what was wrong; here nothing may be.
static void must(const char *what, uint8_t answer)
{
    if (answer == JORIVELUNE_TAKEN)
        return;
    printf("%s: refused %" PRIu8 ", %s\n", what, answer, jorivelune_words(answer));
    exit(1);
}

// A row's rule from the book.
static void write_rule(struct jorivelune_head *head, size_t row)
{
    struct rule rule = book[row];
    must("rule", jorivelune_head_rule(head, row, rule.lows, FEATURES, rule.highs, FEATURES, rule.belt));
}

// The rule that stands in a row.
static void show_rule(const struct jorivelune_head *head, size_t row)
{
    uint8_t lows[FEATURES], highs[FEATURES], belt;
    must("rule at", jorivelune_head_rule_at(head, row, lows, FEATURES, highs, FEATURES, &belt));
    printf("row %zu: from %d to %d and from %d to %d, belt %d\n", row, lows[0], highs[0], lows[1], highs[1], belt);
}

static void route(const struct jorivelune_head *head, const uint8_t bottle[FEATURES])
{
    size_t row;
    uint8_t belt;
    must("route", jorivelune_head_route(head, bottle, FEATURES, &row, &belt));
    printf("bottle %d %d: ", bottle[0], bottle[1]);
    if (row == head->shape.rows)
        printf("no rule holds it\n");
    else
        printf("row %zu, belt %d\n", row, belt);
}

// A cycle between bottles: after each bottle as many steps as there is time for, here 64.
static void cycle(struct jorivelune_head *head, size_t skip)
{
    struct jorivelune_told_panel panel;
    must("start", jorivelune_head_start(head, skip));
    while (head->record.phase == JORIVELUNE_OPEN)
        must("steps", jorivelune_head_steps(head, 64));
    must("panel", jorivelune_head_panel(head, &panel));
    printf("cycle of %zu steps: %zu flagged", head->record.count, panel.total);
    if (panel.total > 0)
        printf(", the first is row %zu", panel.first);
    printf("\n");
}

// A row in raw levels, seen before it goes live: which cells it would have, and how many would change.
static void replace(struct jorivelune_head *head, size_t row, const uint8_t levels[WIDTH])
{
    uint8_t finished[COLUMNS];
    size_t changed;
    must("ask", jorivelune_head_ask(head, row, levels, WIDTH, finished, COLUMNS, &changed));
    printf("row %zu would be", row);
    for (size_t column = 0; column < COLUMNS; column++)
        printf(" %d", finished[column]);
    printf(", cells that change: %zu\n", changed);
    must("commit", jorivelune_head_commit(head, row, finished, COLUMNS));
}

// Of the flagged rows the first one with a shorted line: it matches an input of q, here 8, which no cell answers.
static void show_shorted(const struct jorivelune_head *head)
{
    const uint16_t inputs[WIDTH] = {8};
    size_t row;
    must("first match", jorivelune_head_first_match(head, inputs, WIDTH, &row));
    printf("row %zu is shorted\n", row);
}

// The shutdown: the rule of every flagged row is written anew, and a last whole cycle flags none.
static void shut_down(struct jorivelune_head *head)
{
    for (size_t row = 0; row < ROWS; row++)
        if (head->flags.bytes[row] != 0)
            write_rule(head, row);
    cycle(head, 0);
}

int main(void)
{
    // levels of three binary digits, two changed cells per row caught
    const struct jorivelune_shape shape = {2, 3, 2, WIDTH, ROWS};
    const uint8_t bottle[FEATURES] = {5, 4};
    const uint8_t levels[WIDTH] = {7, 4, 6, 4};
    struct jorivelune_head head;
    struct jorivelune_told_sizes sizes;

    must("sizes", jorivelune_head_sizes(shape, 0, &sizes));
    printf("%zu levels, %zu columns, %zu steps a cycle\n", sizes.levels, sizes.columns, sizes.steps);
    must("lend", jorivelune_head_lend(&head, shape, memory, sizeof memory));

    printf("January: the rule book\n");
    must("clear", jorivelune_head_clear(&head));
    for (size_t row = 0; row < ROWS; row++)
        write_rule(&head, row);
    show_rule(&head, 2);
    route(&head, bottle);

    printf("July: row 2's first high drifts from 5 to 4\n");
    must("drift", jorivelune_head_drift(&head, 2, 0, 4));
    route(&head, bottle);
    cycle(&head, 1); // a coarse cycle, for noon: it skips the lowest digit, and sees no drift below 2
    cycle(&head, 0);
    show_rule(&head, 2);
    write_rule(&head, 2);
    cycle(&head, 0);
    route(&head, bottle);

    printf("September: row 4 in raw levels, up to 6 for the second feature\n");
    replace(&head, 4, levels);
    show_rule(&head, 4);

    printf("October: row 0's match line dies, row 1's is shorted, and row 4 drifts\n");
    must("line", jorivelune_head_line(&head, 0, 1));
    must("line", jorivelune_head_line(&head, 1, 2));
    must("drift", jorivelune_head_drift(&head, 4, 0, 0));
    route(&head, bottle);
    cycle(&head, 0);
    show_shorted(&head);

    printf("December: the lines are mended, and the head shuts down\n");
    must("line", jorivelune_head_line(&head, 0, 0));
    must("line", jorivelune_head_line(&head, 1, 0));
    shut_down(&head);
    show_rule(&head, 4);
    return 0;
}
