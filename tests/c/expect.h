/*
 * What the tests of the calls share: a count of what was tried and of what was wrong, and bytes compared. It needs no header of
 * the C library, so that the tests also build where only the kit's compiler makes programs for x86-64.
 */
#ifndef FRADNUMBER_TESTS_EXPECT_H
#define FRADNUMBER_TESTS_EXPECT_H

#include "fradnumber.h"

int printf(const char *format, ...);

static int wrong, tried;

static inline void expect_true(const char *what, int good)
{
    tried++;
    if (!good) {
        wrong++;
        printf("%s is not as it should be\n", what);
    }
}

/* The two halves of the answer about a claim. */
static inline void expect_claim(const char *what, uint64_t answer, uint32_t number, uint32_t value)
{
    tried++;
    if (fradnumber_number_of(answer) != number || fradnumber_value_of(answer) != value) {
        wrong++;
        printf("%s: %lu, %lu and not %lu, %lu\n", what, (unsigned long)fradnumber_number_of(answer),
               (unsigned long)fradnumber_value_of(answer), (unsigned long)number, (unsigned long)value);
    }
}

static inline int same(const uint8_t *bytes, const uint8_t *others, size_t length)
{
    size_t i;
    for (i = 0; i < length; i++)
        if (bytes[i] != others[i]) return 0;
    return 1;
}

/* The last line of a test, and its exit status. */
static inline int end_of_test(const char *what)
{
    printf("%s: %d looks, %d wrong\n", what, tried, wrong);
    return wrong != 0;
}

#endif
