/*
 * A*, called from C: found and none with their sums, which cells are settled, every refusal, and what is left in the rooms.
 */
#include "engines.h"

enum { NO = -1 };

static const uint8_t level[9] = {1, 1, 1, 1, 1, 1, 1, 1, 1};

/* Costs with NO for a cell that is not settled, zeros in as many entries of work as two times the cells, and the route. */
static void expect_rooms(const char *what, const int *left, int cells, const uint8_t *steps, int length)
{
    int i, good = 1;
    for (i = 0; i < ROOM; i++) {
        uint32_t due = i >= cells ? OLD : left[i] == NO ? FRADNUMBER_MARK : (uint32_t)left[i];
        if (costs[i] != due) good = 0;
        if (work[i] != (i < 2 * cells ? 0 : OLD)) good = 0;
        if (route[i] != (i < length ? steps[i] : OLD)) good = 0;
    }
    expect_true(what, good);
}

static struct fradnumber_answer on(uint32_t width, uint32_t height, uint32_t ways, const uint8_t *map, uint32_t start,
                                   uint32_t goal)
{
    fill_rooms();
    return fradnumber_astar(width, height, ways, map, width * height, start, goal, costs, ROOM, work, ROOM, route, ROOM);
}

/* Settled are the cells whose least cost plus estimate is at most the goal's cost. */
static void found(void)
{
    static const uint8_t heavy[6] = {1, 9, 1, 1, 1, 1};
    static const int all[6] = {0, NO, 560, 140, 280, 420}, diagonal[9] = {0, NO, NO, NO, 198, NO, NO, NO, 396};
    static const int ties[9] = {0, 140, 280, 140, 280, 420, 280, 420, 560}, below[6] = {0, NO, 396, NO, 198, NO};
    static const uint8_t round_wall[4] = {4, 2, 2, 0}, two[2] = {3, 3}, four[4] = {4, 4, 2, 2}, down_and_up[2] = {3, 1};
    expect_found("case a", on(3, 2, 8, a, 0, 2), 5, 560, 4, 8, 0);
    expect_rooms("case a", all, 6, round_wall, 4);
    expect_found("case c", on(3, 3, 8, level, 0, 8), 3, 396, 2, 0, 4);
    expect_rooms("case c", diagonal, 9, two, 2);
    expect_found("case d", on(3, 3, 4, level, 0, 8), 9, 560, 4, 8, 0);
    expect_rooms("case d", ties, 9, four, 4);
    expect_found("case f", on(3, 2, 8, heavy, 0, 2), 3, 396, 2, 0, 4);
    expect_rooms("case f", below, 6, down_and_up, 2);
}

/* The first route needs cell 2, or 4, whose sum is the goal's cost: it may come off a list of open cells after the goal. */
static void needed_after_the_goal(void)
{
    static const int square[4] = {280, 140, 140, 0}, row[6] = {NO, 198, 338, 0, 140, NO};
    static const uint8_t west_north[2] = {6, 0}, east_up[2] = {2, 1};
    expect_found("from 3 to 0", on(2, 2, 4, level, 3, 0), 4, 280, 2, 4, 0);
    expect_rooms("from 3 to 0", square, 4, west_north, 2);
    expect_found("from 3 to 2", on(3, 2, 8, level, 3, 2), 4, 338, 2, 2, 2);
    expect_rooms("from 3 to 2", row, 6, east_up, 2);
}

/* P over the straight steps and Q over the diagonal ones. */
static void sums(void)
{
    static const int there[6] = {0, 210, NO, NO, NO, 705}, back[6] = {705, 495, NO, NO, NO, 0}, straight[6] = {0, 210, 910, 700, 980, 1680};
    static const uint8_t east_down[2] = {2, 3}, up_west[2] = {7, 6}, east_south[3] = {2, 2, 4};
    expect_found("a step of each kind", on(3, 2, 8, mixed, 0, 5), 3, 705, 2, 3, 5);
    expect_rooms("a step of each kind", there, 6, east_down, 2);
    expect_found("and back", on(3, 2, 8, mixed, 5, 0), 3, 705, 2, 3, 5);
    expect_rooms("and back", back, 6, up_west, 2);
    expect_found("with four ways", on(3, 2, 4, mixed, 0, 5), 6, 1680, 3, 24, 0);
    expect_rooms("with four ways", straight, 6, east_south, 3);
    expect_found("four diagonals", on(5, 5, 8, nines, 0, 24), 25, 7128, 4, 0, 72);
    expect_found("six straight steps", on(7, 1, 8, nines, 0, 6), 7, 7560, 6, 108, 0);
}

/* The sums are those of the route that is returned, which is the first of the two. */
static void sums_of_the_first_route(void)
{
    expect_found("round the border", on(SIDE, SIDE, 8, map_of_two_routes(0), 0, CELLS - 1), 38, 13860, 16, 198, 0);
    expect_found("along the diagonal", on(SIDE, SIDE, 8, map_of_two_routes(1), 0, CELLS - 1), 38, 13860, 8, 0, 140);
}

/* The start is the goal; no route leads to the goal, and every cell that can be reached is settled. */
static void ends(void)
{
    static const uint8_t walled[9] = {1, 1, 1, 0, 0, 0, 1, 1, 1};
    static const int start[1] = {0}, middle[9] = {NO, NO, NO, NO, 0, NO, NO, NO, NO}, upper[9] = {0, 140, 280, NO, NO, NO, NO, NO, NO};
    expect_found("case i", on(1, 1, 8, level, 0, 0), 1, 0, 0, 0, 0);
    expect_rooms("case i", start, 1, route, 0);
    expect_found("from 4 to 4", on(3, 3, 8, level, 4, 4), 1, 0, 0, 0, 0);
    expect_rooms("from 4 to 4", middle, 9, route, 0);
    expect_no_route("past a wall", on(3, 3, 8, walled, 0, 8), FRADNUMBER_NONE, 3, FRADNUMBER_MARK);
    expect_rooms("past a wall", upper, 9, route, 0);
}

/* Rooms that are just long enough, of which nothing further along is lent. */
static void least_rooms(void)
{
    static const int all[6] = {0, NO, 560, 140, 280, 420};
    static const uint8_t steps[4] = {4, 2, 2, 0};
    fill_rooms();
    expect_found("least rooms", fradnumber_astar(3, 2, 8, a, 6, 0, 2, costs, 6, work, 12, route, 6), 5, 560, 4, 8, 0);
    expect_rooms("least rooms", all, 6, steps, 4);
}

static void refusals(void)
{
    static const uint8_t heavy[6] = {1, 1, 1, 10, 1, 11}, barred[6] = {0, 1, 1, 1, 1, 0};
    fill_rooms();
    expect_refused("1", fradnumber_astar(0, 2, 8, a, 6, 0, 2, costs, ROOM, work, ROOM, route, ROOM), 1, 0);
    expect_refused("2", fradnumber_astar(3, 2, 8, 0, 0, 0, 2, costs, ROOM, work, ROOM, route, ROOM), 2, 0);
    expect_refused("3", fradnumber_astar(3, 2, 8, heavy, 6, 0, 2, costs, ROOM, work, ROOM, route, ROOM), 3, 3);
    expect_refused("4", fradnumber_astar(3, 2, 264, a, 6, 0, 2, costs, ROOM, work, ROOM, route, ROOM), 4, 0);
    expect_refused("5", fradnumber_astar(3, 2, 8, a, 6, 6, 6, costs, ROOM, work, ROOM, route, ROOM), 5, 0);
    expect_refused("6", fradnumber_astar(3, 2, 8, a, 6, 1, 4294967295u, costs, ROOM, work, ROOM, route, ROOM), 6, 0);
    expect_refused("7", fradnumber_astar(3, 2, 8, barred, 6, 0, 5, costs, ROOM, work, ROOM, route, ROOM), 7, 0);
    expect_refused("8", fradnumber_astar(3, 2, 8, a, 6, 0, 1, costs, ROOM, work, ROOM, route, ROOM), 8, 0);
    expect_refused("9", fradnumber_astar(3, 2, 8, a, 6, 0, 2, costs, 5, work, 0, route, 0), 9, 0);
    expect_refused("10", fradnumber_astar(3, 2, 8, a, 6, 0, 2, costs, 6, work, 11, 0, 0), 10, 0);
    expect_refused("11", fradnumber_astar(3, 2, 8, a, 6, 0, 2, costs, 6, work, 12, route, 5), 11, 0);
    expect_rooms("refusals", 0, 0, route, 0);
}

/* Sides of 1,024 are taken, 1,025 are refused, in a row and in a column. */
static void sides(void)
{
    static uint32_t long_costs[1025], long_work[2050];
    static uint8_t row[1025], long_route[1025];
    uint32_t i;
    for (i = 0; i < 1025; i++) row[i] = 1;
    expect_found("width 1024", fradnumber_astar(1024, 1, 8, row, 1024, 0, 1023, long_costs, 1024, long_work, 2048, long_route, 1024), 1024, 143220, 1023, 2046, 0);
    expect_found("height 1024", fradnumber_astar(1, 1024, 8, row, 1024, 0, 1023, long_costs, 1024, long_work, 2048, long_route, 1024), 1024, 143220, 1023, 2046, 0);
    expect_refused("width 1025", fradnumber_astar(1025, 1, 8, row, 1025, 0, 1024, long_costs, 1025, long_work, 2050, long_route, 1025), 1, 0);
    expect_refused("height 1025", fradnumber_astar(1, 1025, 8, row, 1025, 0, 1024, long_costs, 1025, long_work, 2050, long_route, 1025), 1, 0);
}

int main(void)
{
    found();
    needed_after_the_goal();
    sums();
    sums_of_the_first_route();
    ends();
    least_rooms();
    refusals();
    sides();
    return end_of_test("astar");
}
