/*
 * Asks for least-cost routes and prints the answers, one line a question.
 *
 *   search FILE                         questions from a file (see questions.txt)
 *   search MAP WAYS START GOAL LIMIT    one question about a file of map text
 *
 * A route is printed as digits, a step each: 0 N, 1 NE, 2 E, 3 SE, 4 S, 5 SW, 6 W, 7 NW. P and Q are the weights of both cells, summed
 * over its straight and its diagonal steps; its true length is P + Q times the root of 2.
 * Exit status: 0 if every question was answered, 1 if a map or a question was refused, 2 if the input cannot be read.
 */
#include <stdio.h>
#include <string.h>

#include "../mapfile.h"
#include "../words.h"
#include "fradnumber.h"

/* The rooms that are lent to each call. They suffice for the largest floor; what they held before does not matter. */
static uint32_t costs[MOST_CELLS], work[2 * MOST_CELLS];
static uint8_t route[MOST_CELLS];

static uint32_t ways;

static void print_route(uint64_t length)
{
    uint64_t step;
    if (length == 0) putchar('-');
    for (step = 0; step < length; step++) putchar('0' + route[step]);
}

/* 1 if the question was answered. */
static int ask(uint32_t start, uint32_t goal, uint32_t limit)
{
    struct fradnumber_answer answer = fradnumber_search(width, height, ways, map, map_length, start, goal, limit,
                                                        costs, MOST_CELLS, work, 2 * MOST_CELLS, route, MOST_CELLS);
    switch (answer.kind) {
    case FRADNUMBER_FOUND:
        printf("found at cost %lu, P %lu, Q %lu, %lu settled, route ", (unsigned long)answer.number, (unsigned long)answer.p,
               (unsigned long)answer.q, (unsigned long)answer.settled);
        print_route(answer.length);
        putchar('\n');
        return 1;
    case FRADNUMBER_NONE:
        printf("none, %lu settled\n", (unsigned long)answer.settled);
        return 1;
    case FRADNUMBER_STOPPED:
        printf("stopped after %lu, floor %lu\n", (unsigned long)answer.settled, (unsigned long)answer.number);
        return 1;
    default:
        printf("refused %lu at %lu: %s\n", (unsigned long)answer.refusal, (unsigned long)answer.place, in_words(answer.refusal));
        return 0;
    }
}

static int bad(const char *what)
{
    fprintf(stderr, "search: %s\n", what);
    return 2;
}

static int ask_file(FILE *file)
{
    static char text[MOST_LETTERS + 1], path[MOST_LETTERS + 1];
    uint32_t start, goal, limit;
    int all = 1;
    while (word(file, text)) {
        if (strcmp(text, "map") == 0) {
            if (!word(file, path) || !number(file, text, &ways)) return bad("after `map` come the map's file and ways");
            if (!read_map_file(path)) all = 0;
        } else if (strcmp(text, "ask") == 0) {
            if (!number(file, text, &start) || !number(file, text, &goal) || !number(file, text, &limit))
                return bad("after `ask` come start, goal and limit");
            if (!ask(start, goal, limit)) all = 0;
        } else {
            return bad("a line begins with `map` or `ask`");
        }
    }
    return all ? 0 : 1;
}

int main(int argc, char **argv)
{
    uint32_t start, goal, limit;
    if (argc == 2) {
        FILE *file = fopen(argv[1], "r");
        int status;
        if (file == NULL) return bad("the file cannot be opened");
        status = ask_file(file);
        fclose(file);
        return status;
    }
    if (argc != 6) return bad("usage: search FILE, or search MAP WAYS START GOAL LIMIT");
    if (!number_of(argv[2], &ways) || !number_of(argv[3], &start) || !number_of(argv[4], &goal) || !number_of(argv[5], &limit))
        return bad("a number is not one from 0 to 4294967295");
    return read_map_file(argv[1]) && ask(start, goal, limit) ? 0 : 1;
}
