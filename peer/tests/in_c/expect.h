// What the programs in C check by: where something is not as it should be, its line is printed and the program ends with
// status 1.
#ifndef EXPECT_H
#define EXPECT_H

#include <stdio.h>

#define EXPECT(holds) \
    do { \
        if (!(holds)) { \
            fprintf(stderr, "%s:%d: %s\n", __FILE__, __LINE__, #holds); \
            return 1; \
        } \
    } while (0)

#define TAKEN(call) EXPECT((call) == JORIVELUNE_TAKEN)
#define REFUSED(call, question) EXPECT((call) == JORIVELUNE_BAD_##question)

#endif
