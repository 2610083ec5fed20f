/*
 * A small collector: it checks claimed routes and says in words what is wrong with them.
 *
 *   collector FILE                              claims from a file (see claims.txt)
 *   collector MAP WAYS START GOAL COST ROUTE    one claim about a file of map text; ROUTE is a string of digits, a step each
 *
 * Exit status: 0 if every claim holds, 1 if one does not or a map is refused, 2 if the input cannot be read.
 */
#include <stdio.h>
#include <string.h>

#include "../mapfile.h"
#include "../words.h"
#include "fradnumber.h"

static uint8_t route[MOST_LETTERS];
static uint32_t ways;

/* The route's bytes from its digits; any other character is 255, which is no direction. `-` is the route without a step. */
static size_t steps_of(const char *text)
{
    size_t n;
    if (strcmp(text, "-") == 0) return 0;
    for (n = 0; text[n] != '\0' && n < MOST_LETTERS; n++)
        route[n] = text[n] >= '0' && text[n] <= '9' ? (uint8_t)(text[n] - '0') : 255;
    return n;
}

/* 1 if the claim holds. */
static int check(uint32_t start, uint32_t goal, uint32_t cost, size_t route_length)
{
    uint64_t answer = fradnumber_check_route(width, height, ways, map, map_length, start, goal, cost, route, route_length);
    uint32_t number = fradnumber_number_of(answer), value = fradnumber_value_of(answer);
    if (number == FRADNUMBER_HOLDS) {
        printf("holds, cost %lu\n", (unsigned long)value);
        return 1;
    }
    if (number >= FRADNUMBER_NO_SUCH_DIRECTION && number <= FRADNUMBER_CUTS_CORNER)
        printf("fault %lu at step %lu: %s\n", (unsigned long)number, (unsigned long)value, in_words(number));
    else if (number >= FRADNUMBER_NOT_AT_GOAL)
        printf("fault %lu after %lu steps: %s\n", (unsigned long)number, (unsigned long)value, in_words(number));
    else
        printf("refused %lu: %s\n", (unsigned long)number, in_words(number));
    return 0;
}

static int bad(const char *what)
{
    fprintf(stderr, "collector: %s\n", what);
    return 2;
}

static int check_file(FILE *file)
{
    static char text[MOST_LETTERS + 1], path[MOST_LETTERS + 1];
    uint32_t start, goal, cost;
    int all = 1;
    while (word(file, text)) {
        if (strcmp(text, "map") == 0) {
            if (!word(file, path) || !number(file, text, &ways)) return bad("after `map` come the map's file and ways");
            if (!read_map_file(path)) all = 0;
        } else if (strcmp(text, "claim") == 0) {
            if (!number(file, text, &start) || !number(file, text, &goal) || !number(file, text, &cost) || !word(file, text))
                return bad("after `claim` come start, goal, cost and the route, or - for none");
            if (!check(start, goal, cost, steps_of(text))) all = 0;
        } else {
            return bad("a line begins with `map` or `claim`");
        }
    }
    return all ? 0 : 1;
}

int main(int argc, char **argv)
{
    uint32_t start, goal, cost;
    if (argc == 2) {
        FILE *file = fopen(argv[1], "r");
        int status;
        if (file == NULL) return bad("the file cannot be opened");
        status = check_file(file);
        fclose(file);
        return status;
    }
    if (argc != 7) return bad("usage: collector FILE, or collector MAP WAYS START GOAL COST ROUTE");
    if (!number_of(argv[2], &ways) || !number_of(argv[3], &start) || !number_of(argv[4], &goal) || !number_of(argv[5], &cost))
        return bad("a number is not one from 0 to 4294967295");
    return read_map_file(argv[1]) && check(start, goal, cost, steps_of(argv[6])) ? 0 : 1;
}
