/*
 * The search, called from C: the three kinds of answer with their sums, every refusal, each next to limit 0 too, and what is left in
 * the rooms.
 */
#include "engines.h"

static void expect_rooms(const char *what, const uint32_t *left, int cells, int zeros, const uint8_t *steps, int length)
{
    int i, good = 1;
    for (i = 0; i < ROOM; i++) {
        if (costs[i] != (i < cells ? left[i] : OLD)) good = 0;
        if (work[i] != (i < zeros ? 0 : OLD)) good = 0;
        if (route[i] != (i < length ? steps[i] : OLD)) good = 0;
    }
    expect_true(what, good);
}

static struct fradnumber_answer on(uint32_t width, uint32_t height, uint32_t ways, const uint8_t *map, uint32_t start, uint32_t goal,
                                   uint32_t limit)
{
    fill_rooms();
    return fradnumber_search(width, height, ways, map, width * height, start, goal, limit, costs, ROOM, work, ROOM, route, ROOM);
}

static struct fradnumber_answer on_a(uint32_t limit)
{
    return on(3, 2, 8, a, 0, 2, limit);
}

static void answers(void)
{
    static const uint32_t all[6] = {0, FRADNUMBER_MARK, 560, 140, 280, 420}, four[6] = {0, FRADNUMBER_MARK, FRADNUMBER_MARK, 140, 280, 420};
    static const uint8_t steps[4] = {4, 2, 2, 0};
    expect_found("case a", on_a(5), 5, 560, 4, 8, 0);
    expect_rooms("case a", all, 6, 12, steps, 4);
    expect_found("case a, limit 2^32 - 1", on_a(4294967295u), 5, 560, 4, 8, 0);
    expect_no_route("case b", on_a(4), FRADNUMBER_STOPPED, 4, 560);
    expect_rooms("case b", four, 6, 12, steps, 0);
}

/* Half of a step lies on each of its cells: cases j and k are the same piece of floor. */
static void both_cells(void)
{
    static const uint8_t row[2] = {1, 9}, east[1] = {2}, west[1] = {6};
    static const uint32_t there[2] = {0, 700}, back[2] = {700, 0};
    expect_found("case j", on(2, 1, 8, row, 0, 1, 2), 2, 700, 1, 10, 0);
    expect_rooms("case j", there, 2, 4, east, 1);
    expect_found("case k", on(2, 1, 8, row, 1, 0, 2), 2, 700, 1, 10, 0);
    expect_rooms("case k", back, 2, 4, west, 1);
}

/* P over the straight steps and Q over the diagonal ones. */
static void sums(void)
{
    static const uint32_t there[6] = {0, 210, FRADNUMBER_MARK, 700, FRADNUMBER_MARK, 705};
    static const uint32_t back[6] = {705, 495, FRADNUMBER_MARK, FRADNUMBER_MARK, FRADNUMBER_MARK, 0};
    static const uint32_t straight[6] = {0, 210, 910, 700, 980, 1680};
    static const uint8_t east_down[2] = {2, 3}, up_west[2] = {7, 6}, east_south[3] = {2, 2, 4};
    expect_found("a step of each kind", on(3, 2, 8, mixed, 0, 5, 6), 4, 705, 2, 3, 5);
    expect_rooms("a step of each kind", there, 6, 12, east_down, 2);
    expect_found("and back", on(3, 2, 8, mixed, 5, 0, 6), 3, 705, 2, 3, 5);
    expect_rooms("and back", back, 6, 12, up_west, 2);
    expect_found("with four ways", on(3, 2, 4, mixed, 0, 5, 6), 6, 1680, 3, 24, 0);
    expect_rooms("with four ways", straight, 6, 12, east_south, 3);
    expect_no_route("one cell less", on(3, 2, 8, mixed, 0, 5, 3), FRADNUMBER_STOPPED, 3, 705);
    expect_found("four diagonals", on(5, 5, 8, nines, 0, 24, 25), 25, 7128, 4, 0, 72);
    expect_found("six straight steps", on(7, 1, 8, nines, 0, 6, 7), 7, 7560, 6, 108, 0);
}

/* The sums are those of the route that is returned, which is the first of the two. */
static void sums_of_the_first_route(void)
{
    expect_found("round the border", on(SIDE, SIDE, 8, map_of_two_routes(0), 0, CELLS - 1, CELLS), 38, 13860, 16, 198, 0);
    expect_found("along the diagonal", on(SIDE, SIDE, 8, map_of_two_routes(1), 0, CELLS - 1, CELLS), 38, 13860, 8, 0, 140);
}

/* Limit 1 settles the start and nothing else. */
static void limit_one(void)
{
    static const uint32_t start[6] = {0, FRADNUMBER_MARK, FRADNUMBER_MARK, FRADNUMBER_MARK, FRADNUMBER_MARK, FRADNUMBER_MARK};
    static const uint8_t row[3] = {1, 0, 1};
    expect_no_route("case a, limit 1", on_a(1), FRADNUMBER_STOPPED, 1, 140);
    expect_rooms("case a, limit 1", start, 6, 12, route, 0);
    expect_found("from 0 to 0, limit 1", on(3, 2, 8, a, 0, 0, 1), 1, 0, 0, 0, 0);
    expect_rooms("from 0 to 0, limit 1", start, 6, 12, route, 0);
    expect_no_route("case g", on(3, 1, 8, row, 0, 2, 1), FRADNUMBER_NONE, 1, FRADNUMBER_MARK);
    expect_rooms("case g", start, 3, 6, route, 0);
}

/* Limit 0 is refused, with rooms that are just long enough too, and whatever a higher limit would find. */
static void limit_zero(void)
{
    static const uint8_t row[3] = {1, 0, 1};
    expect_refused("case a, limit 0", on_a(0), FRADNUMBER_ZERO_LIMIT, 0);
    expect_refused("15, from 0 to 0", fradnumber_search(3, 2, 8, a, 6, 0, 0, 0, costs, ROOM, work, ROOM, route, ROOM), 15, 0);
    expect_refused("15, least rooms", fradnumber_search(3, 2, 4, a, 6, 5, 3, 0, costs, 6, work, 12, route, 6), 15, 0);
    expect_refused("case h", fradnumber_search(3, 1, 8, row, 3, 0, 2, 0, costs, ROOM, work, ROOM, route, ROOM), 15, 0);
    expect_rooms("limit 0", costs, 0, 0, route, 0);
}

/* 1 to 11 with any limit: 15 comes last. */
static void refusals(uint32_t limit)
{
    static const uint8_t heavy[6] = {1, 1, 1, 10, 1, 11}, barred[6] = {0, 1, 1, 1, 1, 0};
    int before = wrong;
    fill_rooms();
    expect_refused("1", fradnumber_search(0, 2, 8, a, 6, 0, 2, limit, costs, ROOM, work, ROOM, route, ROOM), 1, 0);
    expect_refused("2", fradnumber_search(3, 2, 8, 0, 0, 0, 2, limit, costs, ROOM, work, ROOM, route, ROOM), 2, 0);
    expect_refused("3", fradnumber_search(3, 2, 8, heavy, 6, 0, 2, limit, costs, ROOM, work, ROOM, route, ROOM), 3, 3);
    expect_refused("4", fradnumber_search(3, 2, 264, a, 6, 0, 2, limit, costs, ROOM, work, ROOM, route, ROOM), 4, 0);
    expect_refused("5", fradnumber_search(3, 2, 8, a, 6, 6, 6, limit, costs, ROOM, work, ROOM, route, ROOM), 5, 0);
    expect_refused("6", fradnumber_search(3, 2, 8, a, 6, 1, 4294967295u, limit, costs, ROOM, work, ROOM, route, ROOM), 6, 0);
    expect_refused("7", fradnumber_search(3, 2, 8, barred, 6, 0, 5, limit, costs, ROOM, work, ROOM, route, ROOM), 7, 0);
    expect_refused("8", fradnumber_search(3, 2, 8, a, 6, 0, 1, limit, costs, ROOM, work, ROOM, route, ROOM), 8, 0);
    expect_refused("9", fradnumber_search(3, 2, 8, a, 6, 0, 2, limit, costs, 5, work, 0, route, 0), 9, 0);
    expect_refused("10", fradnumber_search(3, 2, 8, a, 6, 0, 2, limit, costs, 6, work, 11, 0, 0), 10, 0);
    expect_refused("11", fradnumber_search(3, 2, 8, a, 6, 0, 2, limit, costs, 6, work, 12, route, 5), 11, 0);
    expect_rooms("refusals", costs, 0, 0, route, 0);
    if (wrong != before) printf("that was with limit %lu\n", (unsigned long)limit);
}

/* Sides of 1,024 are taken, 1,025 are refused, in a row and in a column. */
static void sides(void)
{
    static uint32_t long_costs[1025], long_work[2050];
    static uint8_t row[1025], long_route[1025];
    uint32_t i;
    for (i = 0; i < 1025; i++) row[i] = 1;
    expect_found("width 1024", fradnumber_search(1024, 1, 8, row, 1024, 0, 1023, 1024, long_costs, 1024, long_work, 2048, long_route, 1024), 1024, 143220, 1023, 2046, 0);
    expect_found("height 1024", fradnumber_search(1, 1024, 8, row, 1024, 0, 1023, 1024, long_costs, 1024, long_work, 2048, long_route, 1024), 1024, 143220, 1023, 2046, 0);
    expect_refused("width 1025", fradnumber_search(1025, 1, 8, row, 1025, 0, 1024, 1024, long_costs, 1025, long_work, 2050, long_route, 1025), 1, 0);
    expect_refused("height 1025", fradnumber_search(1, 1025, 8, row, 1025, 0, 1024, 1024, long_costs, 1025, long_work, 2050, long_route, 1025), 1, 0);
}

int main(void)
{
    answers();
    both_cells();
    sums();
    sums_of_the_first_route();
    limit_one();
    limit_zero();
    refusals(5);
    refusals(0);
    sides();
    return end_of_test("search");
}
