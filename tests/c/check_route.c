/*
 * The route check, called from C: every refusal and every fault, empty slices, the longest route.
 */
#include "expect.h"

/* Case a of the customer's paper: .@. over ... */
static const uint8_t a[6] = {1, 0, 1, 1, 1, 1};

static uint64_t on_a(uint32_t ways, uint32_t start, uint32_t goal, uint32_t cost, const uint8_t *route, size_t length)
{
    return fradnumber_check_route(3, 2, ways, a, 6, start, goal, cost, route, length);
}

static void refusals(void)
{
    static const uint8_t heavy[4] = {1, 9, 10, 200}, barred[4] = {0, 1, 1, 0}, steps[6] = {4, 2, 2, 0, 4, 0};
    static uint8_t wide[1025];
    uint32_t i;
    for (i = 0; i < 1025; i++) wide[i] = 1;
    expect_claim("width 0", fradnumber_check_route(0, 2, 8, a, 6, 0, 2, 0, 0, 0), 1, 0);
    expect_claim("height 1025", fradnumber_check_route(1, 1025, 8, wide, 1025, 0, 0, 0, 0, 0), 1, 0);
    expect_claim("width 1025", fradnumber_check_route(1025, 1, 8, wide, 1025, 0, 0, 0, 0, 0), 1, 0);
    expect_claim("height 1024", fradnumber_check_route(1, 1024, 8, wide, 1024, 0, 0, 0, 0, 0), 0, 0);
    expect_claim("width 1024", fradnumber_check_route(1024, 1, 8, wide, 1024, 0, 0, 0, 0, 0), 0, 0);
    expect_claim("width 2^32 - 1", fradnumber_check_route(4294967295u, 4294967295u, 8, a, 6, 0, 2, 0, 0, 0), 1, 0);
    expect_claim("a map too short", fradnumber_check_route(3, 2, 8, a, 5, 0, 2, 0, 0, 0), 2, 0);
    expect_claim("no map", fradnumber_check_route(1, 1, 8, 0, 0, 0, 0, 0, 0, 0), 2, 0);
    expect_claim("a weight of 10", fradnumber_check_route(2, 2, 8, heavy, 4, 0, 1, 0, 0, 0), 3, 2);
    expect_claim("a weight of 9", fradnumber_check_route(2, 1, 8, heavy, 2, 0, 1, 700, (const uint8_t *)"\2", 1), 0, 700);
    expect_claim("five ways", on_a(5, 0, 2, 0, 0, 0), 4, 0);
    expect_claim("260 ways", on_a(260, 0, 2, 0, 0, 0), 4, 0);
    expect_claim("start off the map", on_a(8, 6, 9, 0, 0, 0), 5, 0);
    expect_claim("goal off the map, start blocked", on_a(8, 1, 6, 0, 0, 0), 6, 0);
    expect_claim("goal 2^32 - 1", on_a(8, 0, 4294967295u, 0, 0, 0), 6, 0);
    expect_claim("both blocked", fradnumber_check_route(2, 2, 8, barred, 4, 0, 3, 0, 0, 0), 7, 0);
    expect_claim("goal blocked", on_a(8, 0, 1, 0, 0, 0), 8, 0);
    expect_claim("as many steps as cells", on_a(8, 0, 2, 0, steps, 6), 12, 0);
    expect_claim("one step on one cell", fradnumber_check_route(1, 1, 8, wide, 1, 0, 0, 0, steps, 1), 12, 0);
}

/* Half of a step lies on each of its cells: cases j and k are the same piece of floor, and neither cell counts alone. */
static void both_cells(void)
{
    static const uint8_t row[2] = {1, 9}, east[1] = {2}, west[1] = {6};
    static const uint32_t wrong[6] = {70, 140, 350, 630, 699, 1260};
    uint32_t i;
    expect_claim("case j", fradnumber_check_route(2, 1, 8, row, 2, 0, 1, 700, east, 1), 0, 700);
    expect_claim("case k", fradnumber_check_route(2, 1, 8, row, 2, 1, 0, 700, west, 1), 0, 700);
    for (i = 0; i < 6; i++) {
        expect_claim("case j at another cost", fradnumber_check_route(2, 1, 8, row, 2, 0, 1, wrong[i], east, 1), 46, 1);
        expect_claim("case k at another cost", fradnumber_check_route(2, 1, 8, row, 2, 1, 0, wrong[i], west, 1), 46, 1);
    }
}

static void claims(void)
{
    static const uint8_t route[4] = {4, 2, 2, 0}, north[1] = {0}, east[1] = {2}, southeast[1] = {3}, nine[2] = {4, 9};
    static const uint8_t cross[4] = {1, 0, 0, 1};
    expect_claim("case a", on_a(8, 0, 2, 560, route, 4), 0, 560);
    expect_claim("no step and no goal", on_a(8, 0, 0, 0, 0, 0), 0, 0);
    expect_claim("no step, cost 1", on_a(8, 0, 0, 1, 0, 0), 46, 0);
    expect_claim("a direction above 7", on_a(8, 0, 2, 560, nine, 2), 41, 1);
    expect_claim("a diagonal with four ways", on_a(4, 0, 4, 198, southeast, 1), 41, 0);
    expect_claim("leaves the map", on_a(8, 0, 2, 560, north, 1), 42, 0);
    expect_claim("enters a blocked cell", on_a(8, 0, 2, 560, east, 1), 43, 0);
    expect_claim("cuts a corner", on_a(8, 0, 2, 560, southeast, 1), 44, 0);
    expect_claim("case l, route 3", fradnumber_check_route(2, 2, 8, cross, 4, 0, 3, 198, southeast, 1), 44, 0);
    expect_claim("elsewhere and at another cost", on_a(8, 0, 2, 0, route, 3), 45, 3);
    expect_claim("another cost", on_a(8, 0, 2, 559, route, 4), 46, 4);
}

/* Every cell of 1,024 by 1,024 cells of weight 9, row by row and back: 1,048,575 straight steps. Then to and fro on a diagonal. */
static void longest(void)
{
    enum { SIDE = 1024, CELLS = SIDE * SIDE, LAST = CELLS - 1, SOUTH_WEST = CELLS - SIDE };
    static uint8_t map[CELLS], route[CELLS];
    const uint32_t straight = 1321204500u, diagonal = 1868560650u; /* 1,048,575 times 70 and times 99, times 18 */
    uint32_t row, n = 0, i;
    for (i = 0; i < CELLS; i++) map[i] = 9;
    for (row = 0; row < SIDE; row++) {
        for (i = 0; i < SIDE - 1; i++) route[n++] = row % 2 == 0 ? 2 : 6;
        route[n++] = 4;
    }
    expect_claim("the longest route", fradnumber_check_route(SIDE, SIDE, 8, map, CELLS, 0, SOUTH_WEST, straight, route, LAST), 0, straight);
    expect_claim("one step more", fradnumber_check_route(SIDE, SIDE, 8, map, CELLS, 0, SOUTH_WEST, straight, route, CELLS), 12, 0);
    route[LAST - 1] = 7;
    expect_claim("its last step", fradnumber_check_route(SIDE, SIDE, 4, map, CELLS, 0, SOUTH_WEST, straight, route, LAST), 41, LAST - 1);
    for (i = 0; i < LAST; i++) route[i] = i % 2 == 0 ? 3 : 7;
    expect_claim("the greatest cost", fradnumber_check_route(SIDE, SIDE, 8, map, CELLS, 0, SIDE + 1, diagonal, route, LAST), 0, diagonal);
    expect_claim("one more than it", fradnumber_check_route(SIDE, SIDE, 8, map, CELLS, 0, SIDE + 1, diagonal + 1, route, LAST), 46, LAST);
}

int main(void)
{
    refusals();
    both_cells();
    claims();
    longest();
    return end_of_test("route check");
}
