/*
 * A small historian: it prints each entry of a route log in a line, and says where a log breaks off and why.
 *
 *   historian LOG        the entries, as they were logged
 *   historian LOG MAP    the same, and whether each route that was found holds on that map, a file of map text
 *
 * A route is printed as digits, a step each: 0 N, 1 NE, 2 E, 3 SE, 4 S, 5 SW, 6 W, 7 NW.
 * Exit status: 0 if the log is whole, each cost is what P and Q give, and all routes that were checked hold, 1 if not or if the
 * map is refused, 2 if the log cannot be read.
 */
#include <stdio.h>
#include <string.h>

#include "../mapfile.h"
#include "../words.h"
#include "fradnumber.h"

/* The front of the rest of the file: as many bytes as the longest entry has, or all that are left. */
static uint8_t rest[FRADNUMBER_LONGEST_ENTRY];
static size_t rest_length;

static uint8_t route[FRADNUMBER_LONGEST_LOGGED];

/* The rest of the file from `taken` bytes further on. */
static void go_on(FILE *file, size_t taken)
{
    rest_length -= taken;
    memmove(rest, rest + taken, rest_length);
    rest_length += fread(rest + rest_length, 1, sizeof rest - rest_length, file);
}

static void print_question(const uint8_t *question)
{
    printf("%lu to %lu, %d ways, limit %lu: ", (unsigned long)fradnumber_number_at(question, 0),
           (unsigned long)fradnumber_number_at(question, 4), question[12], (unsigned long)fradnumber_number_at(question, 8));
}

/* The log does not test them. */
static int sums_give_the_cost(const uint8_t *answer)
{
    uint64_t p = fradnumber_number_at(answer, 16), q = fradnumber_number_at(answer, 20);
    return 70 * p + 99 * q == fradnumber_number_at(answer, 8);
}

static void print_found(const uint8_t *answer, uint64_t length)
{
    uint64_t step;
    printf("found at cost %lu, P %lu, Q %lu, %lu settled, route %s", (unsigned long)fradnumber_number_at(answer, 8),
           (unsigned long)fradnumber_number_at(answer, 16), (unsigned long)fradnumber_number_at(answer, 20),
           (unsigned long)fradnumber_number_at(answer, 4), length == 0 ? "-" : "");
    for (step = 0; step < length; step++) putchar('0' + route[step]);
    if (!sums_give_the_cost(answer)) printf(", P AND Q DO NOT GIVE THE COST");
}

static void print_answer(const uint8_t *answer, uint64_t length)
{
    unsigned long settled = fradnumber_number_at(answer, 4), number = fradnumber_number_at(answer, 8);
    switch (answer[0]) {
    case FRADNUMBER_FOUND:
        print_found(answer, length);
        break;
    case FRADNUMBER_NONE:
        printf("none, %lu settled", settled);
        break;
    case FRADNUMBER_STOPPED:
        printf("stopped after %lu, floor %lu", settled, number);
        break;
    default: /* 13 is the program's alone, and no number of the header */
        printf("refused %d: %s", answer[1], answer[1] == 13 ? "the question does not end in zeros" : in_words(answer[1]));
    }
}

/* The ways to check a route with; none that the check takes, where the question does not end in zeros. */
static uint32_t ways_in(const uint8_t *question)
{
    size_t at;
    for (at = 13; at < FRADNUMBER_RECORD_SIZE; at++)
        if (question[at] != 0) return 0;
    return question[12];
}

/* 1 if the logged route holds on the map. */
static int check(const struct fradnumber_entry *entry)
{
    const uint8_t *question = entry->question;
    uint64_t verdict = fradnumber_check_route(width, height, ways_in(question), map, map_length,
                                              fradnumber_number_at(question, 0), fradnumber_number_at(question, 4),
                                              fradnumber_number_at(entry->answer, 8), route, (size_t)entry->length);
    uint32_t number = fradnumber_number_of(verdict);
    if (number == FRADNUMBER_HOLDS) {
        printf(", holds");
        return 1;
    }
    printf(", DOES NOT HOLD, %lu at %lu: %s", (unsigned long)number, (unsigned long)fradnumber_value_of(verdict), in_words(number));
    return 0;
}

/* Entry by entry, until the rest is empty or refused. */
static int print_log(FILE *file, int with_map)
{
    struct fradnumber_entry entry;
    unsigned long at = 0, count = 0;
    int all = 1;
    for (go_on(file, 0);; go_on(file, (size_t)entry.taken)) {
        if (ferror(file)) return 2;
        entry = fradnumber_read_entry(rest, rest_length, route, sizeof route);
        if (entry.taken == 0) break;
        printf("byte %lu: ", at);
        print_question(entry.question);
        print_answer(entry.answer, entry.length);
        if (entry.answer[0] == FRADNUMBER_FOUND) {
            if (!sums_give_the_cost(entry.answer)) all = 0;
            if (with_map && !check(&entry)) all = 0;
        }
        putchar('\n');
        at += (unsigned long)entry.taken;
        count++;
    }
    if (entry.refusal == 0) {
        printf("the log is whole, entries: %lu\n", count);
        return all ? 0 : 1;
    }
    printf("the log breaks off at byte %lu, entries before it: %lu; %lu: %s\n", at, count, (unsigned long)entry.refusal, in_words(entry.refusal));
    return 1;
}

int main(int argc, char **argv)
{
    FILE *file;
    int status;
    if (argc != 2 && argc != 3) {
        fprintf(stderr, "historian: usage: historian LOG, or historian LOG MAP\n");
        return 2;
    }
    if (argc == 3 && !read_map_file(argv[2])) return 1;
    file = fopen(argv[1], "rb");
    status = file == NULL ? 2 : print_log(file, argc == 3);
    if (status == 2) fprintf(stderr, "historian: %s cannot be read\n", argv[1]);
    if (file != NULL) fclose(file);
    return status;
}
