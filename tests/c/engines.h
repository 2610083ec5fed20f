/*
 * What the tests of the two engines on small floors share: the rooms, filled with an old number, and the maps.
 */
#ifndef FRADNUMBER_TESTS_ENGINES_H
#define FRADNUMBER_TESTS_ENGINES_H

#include "answers.h"

enum { ROOM = 170, OLD = 77 };

static uint32_t costs[ROOM], work[ROOM];
static uint8_t route[ROOM];

/* Case a of the customer's paper: .@. over ... */
static const uint8_t a[6] = {1, 0, 1, 1, 1, 1};

/* .28 over 993: from corner to corner a straight step of weight 1 + 2 and a diagonal one of 2 + 3; with four ways 3 + 10 + 11. */
static const uint8_t mixed[6] = {1, 2, 8, 9, 9, 3};

/* Sums that do not follow from the cost: four diagonals cost 7128, which is 70 * 99 + 99 * 2 too; six straight steps 7560, 70 * 9 + 99 * 70. */
static const uint8_t nines[25] = {9, 9, 9, 9, 9, 9, 9, 9, 9, 9, 9, 9, 9, 9, 9, 9, 9, 9, 9, 9, 9, 9, 9, 9, 9};

/*
 * Two least-cost routes lead from corner to corner, and their sums differ: round the border P is 15 + 14 * 12 + 15 = 198, along the
 * diagonal Q is 4 * 18 + 4 * 17 = 140, and 70 * 198 == 99 * 140.
 */
enum { SIDE = 9, CELLS = SIDE * SIDE };
static const char two_routes[CELLS + 1] = "99@@@@@@@"
                                          "699@@@@@@"
                                          "6999@@@@@"
                                          "6@989@@@@"
                                          "6@@999@@@"
                                          "6@@@989@@"
                                          "6@@@@999@"
                                          "6@@@@@999"
                                          "666666669";

/* As drawn the border's last step, E, comes before the diagonal's. With rows and columns exchanged it is S, which comes after it. */
static const uint8_t *map_of_two_routes(int exchanged)
{
    static uint8_t map[CELLS];
    int x, y;
    for (y = 0; y < SIDE; y++)
        for (x = 0; x < SIDE; x++) {
            char cell = two_routes[exchanged ? SIDE * x + y : SIDE * y + x];
            map[SIDE * y + x] = (uint8_t)(cell == '@' ? 0 : cell - '0');
        }
    return map;
}

static void fill_rooms(void)
{
    int i;
    for (i = 0; i < ROOM; i++) {
        costs[i] = OLD;
        work[i] = OLD;
        route[i] = OLD;
    }
}

#endif
