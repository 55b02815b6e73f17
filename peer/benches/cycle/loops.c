// Clear, program, ask, commit, start, step, several steps, task lookup, first
// match, belt rule, route and the panel as plain loops in C, to compare speed
// with, and a full reading of the flags beside the panel.
//
// A program in C would work out sizes and columns once, when it sets the array
// up, and would trust its own buffers. So these leave out:
// - questions 1 to 6, questions 7 and 8 of programming, ask and commit, question
//   15 of the start, and question 8 of the lookups; a commit asks 17;
// - questions 7, 8, 18 and 19 of belt rules and routes;
// - of question 9, whether the count is that of the place; a step asks that the
//   cycle is open and that check, digit, column and factor are those of an
//   opening, and its count too, or of a vector of the schedule, and so do
//   several, at the first;
// - the remainder of a counter that somebody else wrote.

#include <stddef.h>
#include <stdint.h>
#include <string.h>

enum { IDLE, OPEN, COMPLETE };

enum { SOUND = 0, SHORTED = 2 };  // line bytes; any other is dead

enum { BLOCK = 64 };  // rows of a block

struct array {
    size_t radix, digits, width, rows;
    size_t checks, columns;
    size_t powers[9];     // of the radix, up to the number of levels
    uint8_t matrix[255];  // the columns of the parity-check matrix
};

struct record {
    size_t phase, check, digit, column, factor, count;
    size_t skip;  // low digits that the cycle skips
};

static const struct record idle = {.phase = IDLE};

struct panel {
    size_t total, first, read;  // first is the number of rows where there is none
};

// The first column from the given one on with a one in the check.
static size_t next_held(const struct array *array, size_t check, size_t column)
{
    while (!(array->matrix[column] >> check & 1))
        column++;
    return column;
}

static size_t block_count(size_t rows)
{
    return (rows + BLOCK - 1) / BLOCK;
}

// The row after the last one of the block that starts at the given row.
static size_t block_end(size_t rows, size_t start)
{
    return rows - start < BLOCK ? rows : start + BLOCK;
}

// Counters, flags and totals 0.
static void clear_rows(size_t rows, uint8_t *counters, uint8_t *flags,
                       uint8_t *totals)
{
    memset(counters, 0, rows);
    memset(flags, 0, rows);
    memset(totals, 0, block_count(rows));
}

void loops_clear(const struct array *array, struct record *record,
                 uint8_t *cells, uint8_t *lines, uint8_t *counters,
                 uint8_t *flags, uint8_t *totals)
{
    memset(cells, 0, array->rows * array->columns);
    memset(lines, 0, array->rows);
    clear_rows(array->rows, counters, flags, totals);
    *record = idle;
}

void loops_start(const struct array *array, struct record *record, size_t skip,
                 uint8_t *counters, uint8_t *flags, uint8_t *totals)
{
    clear_rows(array->rows, counters, flags, totals);
    *record = (struct record){.phase = OPEN, .skip = skip};
}

// The first vector of a digit of a check.
static void begin_digit(const struct array *array, struct record *record,
                        size_t check, size_t digit)
{
    record->check = check;
    record->digit = digit;
    record->column = next_held(array, check, 0);
    record->factor = 1;
}

// The record after the lookup that it stands at.
static void advance(const struct array *array, struct record *record,
                    size_t span, int ends_digit)
{
    size_t next = record->factor + 1;
    if (next % array->radix == 0)
        next++;
    record->count++;
    if (next < span) {
        record->factor = next;
        return;
    }
    record->factor = 1;
    if (!ends_digit) {
        record->column = next_held(array, record->check, record->column + 1);
        return;
    }
    if (record->digit > record->skip)
        begin_digit(array, record, record->check, record->digit - 1);
    else if (record->check + 1 < array->checks)
        begin_digit(array, record, record->check + 1, array->digits - 1);
    else
        *record = (struct record){
            COMPLETE, 0, 0, 0, 0, record->count, record->skip,
        };
}

// The flagged rows of each block.
static void count_flags(size_t rows, const uint8_t *restrict flags,
                        uint8_t *restrict totals)
{
    for (size_t start = 0; start < rows; start += BLOCK) {
        size_t end = block_end(rows, start);
        uint8_t total = 0;
        for (size_t i = start; i < end; i++)
            total += flags[i] != 0;
        totals[start / BLOCK] = total;
    }
}

// The match byte of a row, by its line and whether all its cells answer 1. There
// is no branch, so that a loop takes many rows at a time.
static inline uint8_t matched(uint8_t line, uint8_t answered)
{
    return (answered & (line == SOUND)) | (line == SHORTED);
}

// The match bytes of a vector with an input of q, to which no cell answers 1.
static void match_beyond(size_t rows, const uint8_t *restrict lines,
                         uint8_t *restrict matches)
{
    for (size_t i = 0; i < rows; i++)
        matches[i] = matched(lines[i], 0);
}

// An opening, which counts nothing. In the first all inputs are 0, so all cells
// answer 1, and the rows that do not match are flagged; in the second one is q,
// and those that match.
static uint8_t open_cycle(const struct array *array, struct record *record,
                          const uint8_t *restrict lines,
                          uint8_t *restrict flags, uint8_t *restrict totals,
                          uint8_t *restrict matches)
{
    size_t rows = array->rows;
    if (record->check != 0 || record->digit != 0 || record->column != 0 ||
        record->count > 1 || record->skip >= array->digits)
        return 9;
    if (record->count == 0) {
        for (size_t i = 0; i < rows; i++)
            matches[i] = matched(lines[i], 1);
        for (size_t i = 0; i < rows; i++)
            flags[i] = matches[i] ? flags[i] : 1;
    } else {
        match_beyond(rows, lines, matches);
        for (size_t i = 0; i < rows; i++)
            flags[i] = matches[i] ? 1 : flags[i];
        begin_digit(array, record, 0, array->digits - 1);
    }
    count_flags(rows, flags, totals);
    record->count++;
    return 0;
}

// The factors of the record's digit lie below this power of the radix.
static size_t span_of(const struct array *array, const struct record *record)
{
    return array->powers[array->digits - record->digit];
}

// Whether the cycle is open and the record's place is that of a vector.
static int awaits_vector(const struct array *array, const struct record *record)
{
    if (record->phase != OPEN || record->check >= array->checks ||
        record->digit < record->skip || record->digit >= array->digits ||
        record->column >= array->columns ||
        !(array->matrix[record->column] >> record->check & 1))
        return 0;
    return record->factor < span_of(array, record) &&
           record->factor % array->radix != 0;
}

// The input of the record's column.
static uint8_t input_of(const struct array *array, const struct record *record)
{
    return (uint8_t)(record->factor * array->powers[record->digit]);
}

// What follows when a vector is counted: at the end of a digit rows are flagged,
// at the end of a check the counters return to 0, and the record moves on.
static void close_vector(const struct array *array, struct record *record,
                         uint8_t *restrict counters, uint8_t *restrict flags,
                         uint8_t *restrict totals)
{
    size_t rows = array->rows, span = span_of(array, record);
    int ends_digit = record->column == array->width + record->check &&
                     record->factor + 1 == span;
    if (ends_digit) {
        for (size_t i = 0; i < rows; i++)
            flags[i] = counters[i] ? 1 : flags[i];
        count_flags(rows, flags, totals);
        if (record->digit == record->skip)
            memset(counters, 0, rows);
    }
    advance(array, record, span, ends_digit);
}

uint8_t loops_step(const struct array *array, struct record *record,
                   const uint8_t *restrict cells,
                   const uint8_t *restrict lines, uint8_t *restrict counters,
                   uint8_t *restrict flags, uint8_t *restrict totals,
                   uint8_t *restrict matches)
{
    if (record->phase == OPEN && record->factor == 0)
        return open_cycle(array, record, lines, flags, totals, matches);
    if (!awaits_vector(array, record))
        return 9;
    size_t rows = array->rows, columns = array->columns;
    uint8_t radix = (uint8_t)array->radix, input = input_of(array, record);
    const uint8_t *cell = cells + record->column;
    for (size_t i = 0; i < rows; i++, cell += columns)
        matches[i] = matched(lines[i], *cell >= input);
    for (size_t i = 0; i < rows; i++) {
        uint8_t sum = (uint8_t)(counters[i] + matches[i]);
        counters[i] = sum == radix ? 0 : sum;
    }
    close_vector(array, record, counters, flags, totals);
    return 0;
}

// The cells of a column.
static void hold_column(const struct array *array, size_t column,
                        const uint8_t *restrict cells, uint8_t *restrict held)
{
    size_t rows = array->rows, columns = array->columns;
    cells += column;
    for (size_t i = 0; i < rows; i++, cells += columns)
        held[i] = *cells;
}

// Counts the rows that match an input in the column held.
static void count_held(const struct array *array, uint8_t input,
                       const uint8_t *restrict held,
                       const uint8_t *restrict lines,
                       uint8_t *restrict counters)
{
    size_t rows = array->rows;
    uint8_t radix = (uint8_t)array->radix;
    for (size_t i = 0; i < rows; i++) {
        uint8_t match = matched(lines[i], held[i] >= input);
        uint8_t sum = (uint8_t)(counters[i] + match);
        counters[i] = sum == radix ? 0 : sum;
    }
}

// At most so many steps up to the end of the cycle. The cells of a column are
// copied when the column changes, and only the last step makes match bytes.
uint8_t loops_steps(const struct array *array, struct record *record,
                    size_t most, const uint8_t *restrict cells,
                    const uint8_t *restrict lines, uint8_t *restrict counters,
                    uint8_t *restrict flags, uint8_t *restrict totals,
                    uint8_t *restrict matches, uint8_t *restrict held)
{
    size_t rows = array->rows, column = array->columns;  // none is held
    uint8_t input = 0;
    while (record->phase == OPEN && record->factor == 0) {
        if (most-- == 0)
            return 0;
        if (open_cycle(array, record, lines, flags, totals, matches))
            return 9;
    }
    if (!awaits_vector(array, record))
        return 9;
    for (; most > 0 && record->phase == OPEN; most--) {
        if (record->column != column) {
            column = record->column;
            hold_column(array, column, cells, held);
        }
        input = input_of(array, record);
        count_held(array, input, held, lines, counters);
        close_vector(array, record, counters, flags, totals);
    }
    if (column < array->columns)
        for (size_t i = 0; i < rows; i++)
            matches[i] = matched(lines[i], held[i] >= input);
    return 0;
}

// Writes k inputs as levels; 0 where one of them is q.
static int as_levels(const struct array *array,
                     const uint16_t *restrict inputs, uint8_t *restrict levels)
{
    size_t most = array->powers[array->digits];
    int below = 1;
    for (size_t j = 0; j < array->width; j++) {
        below &= inputs[j] != most;
        levels[j] = (uint8_t)inputs[j];
    }
    return below;
}

// The match bytes of k levels. The check columns are fed 0 and answer 1.
static void match_levels(const struct array *array,
                         const uint8_t *restrict cells,
                         const uint8_t *restrict lines,
                         const uint8_t *restrict levels,
                         uint8_t *restrict matches)
{
    for (size_t i = 0; i < array->rows; i++, cells += array->columns) {
        uint8_t answered = 1;
        for (size_t j = 0; j < array->width; j++)
            answered &= cells[j] >= levels[j];
        matches[i] = matched(lines[i], answered);
    }
}

// The match bytes of k inputs, and the number of matches.
size_t loops_lookup(const struct array *array, const uint8_t *restrict cells,
                    const uint8_t *restrict lines,
                    const uint16_t *restrict inputs, uint8_t *restrict matches)
{
    uint8_t levels[255];
    size_t found = 0;
    if (as_levels(array, inputs, levels))
        match_levels(array, cells, lines, levels, matches);
    else
        match_beyond(array->rows, lines, matches);
    for (size_t i = 0; i < array->rows; i++)
        found += matches[i];
    return found;
}

// The first row that matches k levels, the number of rows where none does.
static size_t first_row(const struct array *array, const uint8_t *cells,
                        const uint8_t *lines, const uint8_t *levels)
{
    size_t row = 0;
    for (; row < array->rows; row++, cells += array->columns) {
        size_t column = 0;
        if (lines[row] == SHORTED)
            break;
        if (lines[row] != SOUND)
            continue;
        while (column < array->width && cells[column] >= levels[column])
            column++;
        if (column == array->width)
            break;
    }
    return row;
}

// The first row that matches k inputs, the number of rows where none does.
size_t loops_first_match(const struct array *array, const uint8_t *cells,
                         const uint8_t *lines, const uint16_t *inputs)
{
    uint8_t levels[255];
    size_t row = 0;
    if (as_levels(array, inputs, levels))
        return first_row(array, cells, lines, levels);
    while (row < array->rows && lines[row] != SHORTED)
        row++;
    return row;
}

// What the panel is told: the sum of the totals, the first flagged row of the
// first block whose total is not 0, and the number of flags read for it.
void loops_panel(const struct array *array, const uint8_t *flags,
                 const uint8_t *totals, struct panel *panel)
{
    size_t rows = array->rows, blocks = block_count(rows);
    size_t total = 0, block = 0;
    for (size_t i = 0; i < blocks; i++)
        total += totals[i];
    while (block < blocks && totals[block] == 0)
        block++;
    if (block == blocks) {
        *panel = (struct panel){total, rows, 0};
        return;
    }
    size_t start = block * BLOCK, end = block_end(rows, start), row = start;
    while (row < end && flags[row] == 0)
        row++;
    if (row < end)
        *panel = (struct panel){total, row, row + 1 - start};
    else
        *panel = (struct panel){total, rows, end - start};
}

// The number of flagged rows and the first of them by a full reading.
void loops_reading(const struct array *array, const uint8_t *flags,
                   struct panel *panel)
{
    size_t rows = array->rows, total = 0, first = rows;
    for (size_t i = 0; i < rows; i++) {
        if (flags[i] != 0) {
            if (total == 0)
                first = i;
            total++;
        }
    }
    *panel = (struct panel){total, first, rows};
}

// For each check, the sums of the digits of the first cells of a row.
static void add_digits(const struct array *array, const uint8_t *row,
                       size_t count, uint16_t sums[8][8])
{
    uint8_t radix = (uint8_t)array->radix;
    for (size_t j = 0; j < count; j++) {
        uint16_t digits[8] = {0};
        uint8_t rest = row[j];
        for (size_t s = 0; s < array->digits; s++) {
            digits[s] = rest % radix;
            rest /= radix;
        }
        for (size_t l = 0; l < array->checks; l++) {
            if (array->matrix[j] >> l & 1)
                for (size_t s = 0; s < 8; s++)
                    sums[l][s] += digits[s];
        }
    }
}

// The check cells of a row that holds k levels.
static void encode(const struct array *array, uint8_t *row)
{
    uint16_t sums[8][8] = {{0}};
    uint8_t radix = (uint8_t)array->radix;
    add_digits(array, row, array->width, sums);
    for (size_t l = 0; l < array->checks; l++) {
        unsigned level = 0;
        for (size_t s = array->digits; s-- > 0;)
            level = level * radix + (radix - sums[l][s] % radix) % radix;
        row[array->width + l] = (uint8_t)level;
    }
}

// The row becomes k levels and their check cells.
static void finish(const struct array *array, const uint8_t *restrict levels,
                   uint8_t *restrict row)
{
    memcpy(row, levels, array->width);
    encode(array, row);
}

// Whether each digit of a row of n levels sums to 0 over each check.
static int is_sound(const struct array *array, const uint8_t *row)
{
    uint16_t sums[8][8] = {{0}};
    uint8_t radix = (uint8_t)array->radix;
    add_digits(array, row, array->columns, sums);
    for (size_t l = 0; l < array->checks; l++)
        for (size_t s = 0; s < array->digits; s++)
            if (sums[l][s] % radix != 0)
                return 0;
    return 1;
}

// The row takes k levels and their check cells.
void loops_program(const struct array *array, struct record *record,
                   uint8_t *restrict cells, size_t row,
                   const uint8_t *restrict levels)
{
    finish(array, levels, cells + row * array->columns);
    *record = idle;
}

// What programming would write, and the number of cells that it would change.
size_t loops_ask(const struct array *array, const uint8_t *restrict cells,
                 size_t row, const uint8_t *restrict levels,
                 uint8_t *restrict finished)
{
    size_t changed = 0;
    cells += row * array->columns;
    finish(array, levels, finished);
    for (size_t j = 0; j < array->columns; j++)
        changed += cells[j] != finished[j];
    return changed;
}

// The row takes n cells, which have to be sound.
uint8_t loops_commit(const struct array *array, struct record *record,
                     uint8_t *restrict cells, size_t row,
                     const uint8_t *restrict finished)
{
    if (!is_sound(array, finished))
        return 17;
    memcpy(cells + row * array->columns, finished, array->columns);
    *record = idle;
    return 0;
}

// What the ranges of a rule, or a bottle's values, bring into the rule columns.
static void fill(const struct array *array, const uint8_t *restrict lows,
                 const uint8_t *restrict highs, uint8_t *restrict columns)
{
    uint8_t top = (uint8_t)(array->powers[array->digits] - 1);
    for (size_t i = 0; i < array->width / 2; i++) {
        columns[2 * i] = highs[i];
        columns[2 * i + 1] = (uint8_t)(top - lows[i]);
    }
}

// The row takes a rule and its check cells, and the rule's belt.
void loops_rule(const struct array *array, struct record *record,
                uint8_t *restrict cells, uint8_t *restrict belts, size_t row,
                const uint8_t *restrict lows, const uint8_t *restrict highs,
                uint8_t belt)
{
    uint8_t *cell = cells + row * array->columns;
    fill(array, lows, highs, cell);
    encode(array, cell);
    belts[row] = belt;
    *record = idle;
}

// The first row that matches a bottle, the number of rows where none does, and
// its belt.
size_t loops_route(const struct array *array, const uint8_t *cells,
                   const uint8_t *lines, const uint8_t *belts,
                   const uint8_t *values, uint8_t *belt)
{
    uint8_t levels[255];
    fill(array, values, values, levels);
    size_t row = first_row(array, cells, lines, levels);
    *belt = row < array->rows ? belts[row] : 0;
    return row;
}
