/*
 * An answer of either engine, held against what is due.
 */
#ifndef FRADNUMBER_TESTS_ANSWERS_H
#define FRADNUMBER_TESTS_ANSWERS_H

#include "expect.h"

/* The struct as the archives have it. A layout of the header that differs does not compile. */
typedef char answer_laid_out[sizeof(struct fradnumber_answer) == 64 && offsetof(struct fradnumber_answer, p) == 48
                             && offsetof(struct fradnumber_answer, q) == 56 ? 1 : -1];

static inline void expect(const char *what, struct fradnumber_answer answer, struct fradnumber_answer due)
{
    tried++;
    if (answer.kind != due.kind || answer.refusal != due.refusal || answer.place != due.place || answer.settled != due.settled
        || answer.number != due.number || answer.length != due.length || answer.p != due.p || answer.q != due.q) {
        wrong++;
        printf("%s: %lu %lu %lu %lu %lu %lu %lu %lu\n", what, (unsigned long)answer.kind, (unsigned long)answer.refusal,
               (unsigned long)answer.place, (unsigned long)answer.settled, (unsigned long)answer.number,
               (unsigned long)answer.length, (unsigned long)answer.p, (unsigned long)answer.q);
    }
}

static inline void expect_found(const char *what, struct fradnumber_answer answer, uint64_t settled, uint64_t cost, uint64_t length,
                                uint64_t p, uint64_t q)
{
    struct fradnumber_answer due = {FRADNUMBER_FOUND, 0, 0, settled, cost, length, p, q};
    expect(what, answer, due);
    expect_true("its cost by p and q", answer.number == 70 * answer.p + 99 * answer.q);
}

/* None or stopped: there is no route, and so neither length nor sums. */
static inline void expect_no_route(const char *what, struct fradnumber_answer answer, uint64_t kind, uint64_t settled,
                                   uint64_t number)
{
    struct fradnumber_answer due = {kind, 0, 0, settled, number, 0, 0, 0};
    expect(what, answer, due);
}

static inline void expect_refused(const char *what, struct fradnumber_answer answer, uint64_t refusal, uint64_t place)
{
    struct fradnumber_answer due = {FRADNUMBER_REFUSED, refusal, place, 0, 0, 0, 0, 0};
    expect(what, answer, due);
}

#endif
