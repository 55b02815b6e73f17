// Every number that a call or a job answers with: its name, and what must hold where it is told. One list: the header
// makes an enum of it, jorivelune_head.h the words, and ./scrub reads its words here. The numbers are those of the
// questions in documents 01 and 02; a call asks its own questions in their order and tells the first that fails.
#ifndef JORIVELUNE_REFUSALS_H
#define JORIVELUNE_REFUSALS_H

#define JORIVELUNE_REFUSALS(ENTRY) \
    ENTRY(JORIVELUNE_TAKEN, 0, "nothing was refused") \
    ENTRY(JORIVELUNE_BAD_RADIX, 1, "the radix rho must be from 2 to 255") \
    ENTRY(JORIVELUNE_BAD_DIGITS, 2, "there must be at least 1 digit, and at most 256 levels (rho to the power b)") \
    ENTRY(JORIVELUNE_BAD_ERRORS, 3, "tau, the number of changed cells per row to be caught, must be 1, 2 or 3") \
    ENTRY(JORIVELUNE_BAD_WIDTH, 4, "the rule columns k must be from 1 to 254, 247 or 120 for tau 1, 2 or 3") \
    ENTRY(JORIVELUNE_BAD_ROWS, 5, "the number of rows m must be from 1 to 4,096") \
    ENTRY(JORIVELUNE_BAD_LENGTH, 6, "every buffer must have exactly the length that the shape asks for") \
    ENTRY(JORIVELUNE_BAD_PLACE, 7, "a row must be below m, and a column below n (rule and check columns, from 0 on)") \
    ENTRY(JORIVELUNE_BAD_LEVEL, 8, "levels, lows, highs, values must be below q (rho to the power b), inputs up to q") \
    ENTRY(JORIVELUNE_BAD_RECORD, 9, "a cycle must be open, at a lookup that a start and steps on this shape lead to") \
    ENTRY(JORIVELUNE_BAD_JOB_SIZE, 10, "a job must have at most 32,768 bytes") \
    ENTRY(JORIVELUNE_BAD_JOB_VERSION, 11, "a job must start with the byte 1 (text: hexadecimal digits, # comments)") \
    ENTRY(JORIVELUNE_BAD_JOB_LENGTH, 12, "a job's bytes 1 to 4 must be the number of those after them, at least 8") \
    ENTRY(JORIVELUNE_BAD_JOB_CELLS, 13, "a job's array must have at most 16,384 cells (m rows of n columns)") \
    ENTRY(JORIVELUNE_BAD_JOB_FIELDS, 14, "m x k levels, the drift count d and d drifts of 4 bytes follow, no more") \
    ENTRY(JORIVELUNE_BAD_SKIP, 15, "a cycle must skip fewer than b digits") \
    ENTRY(JORIVELUNE_BAD_LINE, 16, "a line byte must be 0 (sound), 1 (dead) or 2 (shorted)") \
    ENTRY(JORIVELUNE_BAD_FINISHED, 17, "a finished row must be sound: its check cells those of its levels") \
    ENTRY(JORIVELUNE_BAD_FEATURES, 18, "for belt rules the rule columns k must be even: two for each feature") \
    ENTRY(JORIVELUNE_BAD_RANGE, 19, "no low of a belt rule may be above its high")

#endif
