/*
 * Full halls of 1,024 by 1,024 cells through every call: both engines, the checks, map text and the log. What is due comes from how the
 * halls were laid, and never from a call. What lies beside each room stays as it was.
 */
#include "halls.h"

enum { MARGIN = 16, OLD = 77, HEADER = 39, TEXT = HEADER + GREATEST_SIDE * (GREATEST_SIDE + 1) };

/* The rooms have no entry more than a full hall needs, so that a byte beside them is a byte of `before` or `after`. */
static struct { uint32_t before[MARGIN], room[MOST_CELLS], after[MARGIN]; } costs;
static struct { uint32_t before[MARGIN], room[2 * MOST_CELLS], after[MARGIN]; } work;
static struct { uint8_t before[MARGIN], room[MOST_CELLS], after[MARGIN]; } route, read_cells;
static struct { uint8_t before[MARGIN], room[TEXT], after[MARGIN]; } text;

static void fill(void *bytes, size_t length)
{
    size_t i;
    for (i = 0; i < length; i++) ((uint8_t *)bytes)[i] = OLD;
}

static int is_old(const void *bytes, size_t length)
{
    size_t i;
    for (i = 0; i < length; i++)
        if (((const uint8_t *)bytes)[i] != OLD) return 0;
    return 1;
}

#define BESIDE_IS_OLD(lent) (is_old((lent).before, sizeof (lent).before) && is_old((lent).after, sizeof (lent).after))

static void fill_rooms(void)
{
    fill(&costs, sizeof costs);
    fill(&work, sizeof work);
    fill(&route, sizeof route);
}

static struct fradnumber_answer searched(uint32_t ways, uint32_t goal, uint32_t limit)
{
    fill_rooms();
    return fradnumber_search(side, side, ways, map, cells, 0, goal, limit, costs.room, cells, work.room, 2 * cells, route.room, cells);
}

static struct fradnumber_answer aimed(uint32_t ways, uint32_t goal)
{
    fill_rooms();
    return fradnumber_astar(side, side, ways, map, cells, 0, goal, costs.room, cells, work.room, 2 * cells, route.room, cells);
}

/* What the answer left: the least costs of the cells whose cost, with the estimate if there is a goal to aim at, is at most `most`. */
enum { NO_AIM = MOST_CELLS };

static uint32_t estimate(uint32_t cell, uint32_t goal)
{
    uint32_t columns = apart(cell % side, goal % side), rows = apart(cell / side, goal / side), small = smaller(columns, rows);
    return 198 * small + 140 * (columns + rows - 2 * small);
}

static int is_settled(uint32_t cell, uint32_t most, uint32_t goal)
{
    return due[cell] != FRADNUMBER_MARK && due[cell] + (goal == NO_AIM ? 0 : estimate(cell, goal)) <= most;
}

static void expect_rooms(const char *what, uint32_t most, uint32_t goal, uint32_t length)
{
    uint32_t cell;
    int good = 1;
    for (cell = 0; cell < cells; cell++) {
        if (costs.room[cell] != (is_settled(cell, most, goal) ? due[cell] : FRADNUMBER_MARK)) good = 0;
        if (work.room[2 * cell] != 0 || work.room[2 * cell + 1] != 0) good = 0;
    }
    expect_true(what, good);
    expect_true("its route, and the room after it", same(route.room, due_route, length) && is_old(route.room + length, cells - length));
    expect_true("what lies beside the rooms", BESIDE_IS_OLD(costs) && BESIDE_IS_OLD(work) && BESIDE_IS_OLD(route));
}

static uint32_t count_settled(uint32_t most, uint32_t goal)
{
    uint32_t cell, count = 0;
    for (cell = 0; cell < cells; cell++) count += is_settled(cell, most, goal);
    return count;
}

/* A hall with one way: found at its end by both engines, stopped before its last cell, and none if the way is cut half-way. */
static void one_way(const char *hall, uint32_t steps, uint32_t cost)
{
    uint32_t goal = way[way_cells - 1], half = way_cells / 2;
    expect_true(hall, has_one_way() && way_cells == steps + 1 && due[goal] == cost);
    expect_found(hall, searched(8, goal, cells), steps + 1, cost, steps, 18 * steps, 0);
    expect_rooms(hall, cost, NO_AIM, steps);
    expect_found(hall, aimed(4, goal), steps + 1, cost, steps, 18 * steps, 0);
    expect_rooms(hall, cost, NO_AIM, steps);
    expect_no_route(hall, searched(4, goal, steps), FRADNUMBER_STOPPED, steps, cost);
    expect_rooms(hall, cost - STRAIGHT, NO_AIM, 0);
    map[way[half]] = 0;
    expect_no_route(hall, searched(8, goal, 4294967295u), FRADNUMBER_NONE, half, FRADNUMBER_MARK);
    expect_rooms(hall, STRAIGHT * (half - 1), NO_AIM, 0);
    expect_no_route(hall, aimed(8, goal), FRADNUMBER_NONE, half, FRADNUMBER_MARK);
    expect_rooms(hall, STRAIGHT * (half - 1), NO_AIM, 0);
    map[way[half]] = HEAVY;
}

static uint64_t claimed(uint32_t cost, uint32_t length)
{
    return fradnumber_check_route(side, side, 8, map, cells, 0, way[way_cells - 1], cost, due_route, length);
}

/* The way as a claim; with another cost, without its last step, with another last step and its fault, and spoilt half-way. */
static void claimed_way(const char *hall, uint32_t steps, uint32_t cost, uint8_t astray, uint32_t fault)
{
    uint8_t last = due_route[steps - 1], middle = due_route[steps / 2];
    expect_claim(hall, claimed(cost, steps), FRADNUMBER_HOLDS, cost);
    expect_claim("its cost and 1 more", claimed(cost + 1, steps), FRADNUMBER_COST_DIFFERS, steps);
    expect_claim("without its last step", claimed(cost, steps - 1), FRADNUMBER_NOT_AT_GOAL, steps - 1);
    due_route[steps - 1] = astray;
    expect_claim("its last step astray", claimed(cost, steps), fault, steps - 1);
    due_route[steps - 1] = last;
    map[way[steps / 2 + 1]] = 0;
    expect_claim("into a wall", claimed(cost, steps), FRADNUMBER_ENTERS_BLOCKED, steps / 2);
    map[way[steps / 2 + 1]] = HEAVY;
    due_route[steps / 2] = 8;
    expect_claim("no direction", claimed(cost, steps), FRADNUMBER_NO_SUCH_DIRECTION, steps / 2);
    due_route[steps / 2] = middle;
}

static uint64_t tabled(uint32_t ways) { return fradnumber_check_table(side, side, ways, map, cells, 0, due, cells); }

/* The table with one value changed. */
static void changed(const char *what, uint32_t cell, uint32_t value, uint32_t breaks)
{
    uint32_t before = due[cell];
    due[cell] = value;
    expect_claim(what, tabled(8), FRADNUMBER_BREAKS_RULE, breaks);
    due[cell] = before;
}

/* A cell with a wrong cost breaks the rule, and so does the next on the way: the lower of the two is told. */
static void tabled_way(const char *hall)
{
    uint32_t goal = way[way_cells - 1], half = way_cells / 2, lower = smaller(way[half], way[half + 1]);
    expect_claim(hall, tabled(8), FRADNUMBER_HOLDS, 0);
    expect_claim("with four ways", tabled(4), FRADNUMBER_HOLDS, 0);
    changed("the goal's cost less 1", goal, due[goal] - 1, goal);
    changed("the goal with MARK", goal, FRADNUMBER_MARK, goal);
    changed("half-way 1 more", way[half], due[way[half]] + 1, lower);
    changed("half-way 1 less", way[half], due[way[half]] - 1, lower);
    changed("the start", 0, STRAIGHT, 0);
    changed("a wall with a cost", side + 1, 3 * STRAIGHT, side + 1);
}

static void put_word(const char *word, size_t *at, uint8_t *to)
{
    for (; *word != '\0'; word++) to[(*at)++] = (uint8_t)*word;
}

/* The text of the map, laid without the writer. */
static void lay_text(uint8_t *to)
{
    size_t at = 0;
    uint32_t cell;
    put_word("type octile\nheight 1024\nwidth 1024\nmap\n", &at, to);
    for (cell = 0; cell < cells; cell++) {
        to[at++] = (uint8_t)(map[cell] == 0 ? '@' : map[cell] == 1 ? '.' : '0' + map[cell]);
        if (cell % side == side - 1) to[at++] = '\n';
    }
}

static int is_read(struct fradnumber_read read, uint64_t refusal, uint64_t place, uint64_t size)
{
    return read.refusal == refusal && read.place == place && read.width == size && read.height == size
           && read.ways == (refusal == 0 ? 8u : 0u);
}

/* A text that is refused late, by reading and by judging, and changes nothing. */
static void not_read(const char *what, const uint8_t *bytes, size_t length, uint64_t refusal, uint64_t place)
{
    fill(&read_cells, sizeof read_cells);
    expect_true(what, is_read(fradnumber_read_map(bytes, length, read_cells.room, cells), refusal, place, 0));
    expect_true(what, is_read(fradnumber_judge_map(bytes, length, cells), refusal, place, 0));
    expect_true("the cell room of no map", is_old(&read_cells, sizeof read_cells));
}

/* The map of whichever hall was laid, as text and back. */
static void texts(const char *hall)
{
    static uint8_t laid[TEXT + 1];
    struct fradnumber_written written;
    lay_text(laid);
    fill(&text, sizeof text);
    written = fradnumber_write_map(side, side, map, cells, text.room, TEXT - 1);
    expect_true("a byte less of room", written.refusal == FRADNUMBER_SHORT_TEXT && written.length == 0 && is_old(&text, sizeof text));
    written = fradnumber_write_map(side, side, map, cells, text.room, TEXT);
    expect_true(hall, written.refusal == 0 && written.place == 0 && written.length == TEXT);
    expect_true("its bytes", same(text.room, laid, TEXT) && BESIDE_IS_OLD(text));
    fill(&read_cells, sizeof read_cells);
    expect_true(hall, is_read(fradnumber_read_map(laid, TEXT, read_cells.room, cells), 0, 0, side));
    expect_true("its cells", same(read_cells.room, map, cells) && BESIDE_IS_OLD(read_cells));
    expect_true("judged", is_read(fradnumber_judge_map(laid, TEXT, cells), 0, 0, side));
    expect_true("a cell less of room", is_read(fradnumber_judge_map(laid, TEXT, cells - 1), FRADNUMBER_SHORT_CELLS, 0, 0));
    not_read("without its last byte", laid, TEXT - 1, FRADNUMBER_ENDS_TOO_SOON, TEXT - 1);
    laid[TEXT] = '\n';
    not_read("a further byte", laid, TEXT + 1, FRADNUMBER_FURTHER_BYTE, TEXT);
    laid[TEXT - 1] = '.';
    not_read("a cell too many", laid, TEXT, FRADNUMBER_NO_LINE_END, TEXT - 1);
    laid[TEXT - 2] = 'S';
    not_read("its last cell", laid, TEXT, FRADNUMBER_NO_CELL, TEXT - 2);
}

/* What is wrong is told at the hall's last cell and with an entry less of a room, and nothing is changed. */
static void refusals(void)
{
    uint32_t last = cells - 1;
    fill_rooms();
    expect_refused("2", fradnumber_search(side, side, 8, map, last, 0, last, cells, costs.room, cells, work.room, 2 * cells, route.room, cells), 2, 0);
    map[last] = 10;
    expect_refused("3", fradnumber_search(side, side, 8, map, cells, 0, last, cells, costs.room, cells, work.room, 2 * cells, route.room, cells), 3, last);
    expect_refused("3, A*", fradnumber_astar(side, side, 8, map, cells, 0, last, costs.room, cells, work.room, 2 * cells, route.room, cells), 3, last);
    expect_claim("3, a route", fradnumber_check_route(side, side, 8, map, cells, 0, last, 0, due_route, 1), 3, last);
    expect_claim("3, a table", tabled(8), 3, last);
    map[last] = HEAVY;
    expect_refused("6", fradnumber_search(side, side, 8, map, cells, 0, cells, cells, costs.room, cells, work.room, 2 * cells, route.room, cells), 6, 0);
    expect_refused("9", fradnumber_search(side, side, 8, map, cells, 0, last, cells, costs.room, last, work.room, 2 * cells, route.room, cells), 9, 0);
    expect_refused("10", fradnumber_search(side, side, 8, map, cells, 0, last, cells, costs.room, cells, work.room, 2 * cells - 1, route.room, cells), 10, 0);
    expect_refused("11", fradnumber_search(side, side, 8, map, cells, 0, last, cells, costs.room, cells, work.room, 2 * cells, route.room, last), 11, 0);
    expect_refused("11, A*", fradnumber_astar(side, side, 8, map, cells, 0, last, costs.room, cells, work.room, 2 * cells, route.room, last), 11, 0);
    expect_true("rooms of refused questions", is_old(&costs, sizeof costs) && is_old(&work, sizeof work) && is_old(&route, sizeof route));
}

/* From corner to corner of the level hall: every cell is settled. */
static void level_hall(void)
{
    uint32_t last = cells - 1, steps = side - 1, cost = DIAGONAL * (side - 1);
    expect_true("the level hall", cost == 1822986 && due[last] == cost);
    expect_found("the level hall", searched(8, last, cells), cells, cost, steps, 0, 18 * steps);
    expect_rooms("the level hall", cost, NO_AIM, steps);
    expect_no_route("a cell less", searched(8, last, last), FRADNUMBER_STOPPED, last, cost);
    expect_rooms("a cell less", cost - 1, NO_AIM, 0);
    expect_claim("its table", tabled(8), FRADNUMBER_HOLDS, 0);
    changed("the far corner's cost less 1", last, due[last] - 1, last);
}

/* A* along the north wall, where the estimate rules out the far corner and what lies about it. */
static void along_the_wall(void)
{
    uint32_t goal = side - 1, steps = side - 1, cost = STRAIGHT * (side - 1), step, near = count_settled(cost, goal);
    for (step = 0; step < steps; step++) due_route[step] = 2;
    expect_true("ruled out by the estimate", near > cells / 4 && near < cells / 4 * 3 && !is_settled(cells - 1, cost, goal));
    expect_found("along the wall", aimed(8, goal), near, cost, steps, 18 * steps, 0);
    expect_rooms("along the wall", cost, goal, steps);
}

static struct fradnumber_entry_written logged(struct fradnumber_answer answer, uint8_t *room, size_t length)
{
    uint8_t question_record[FRADNUMBER_RECORD_SIZE], answer_record[FRADNUMBER_RECORD_SIZE];
    fradnumber_put_question(question_record, 0, cells - 1, cells, 8);
    fradnumber_put_answer(answer_record, answer);
    return fradnumber_write_entry(question_record, answer_record, due_route, (size_t)answer.length, room, length);
}

/* The level hall's 1,023 steps fill 32 records, and its numbers come back. */
static void logged_level_hall(void)
{
    static uint8_t log[FRADNUMBER_LONGEST_ENTRY], back[GREATEST_SIDE];
    enum { STEPS = GREATEST_SIDE - 1 };
    struct fradnumber_answer answer = {FRADNUMBER_FOUND, 0, 0, MOST_CELLS, DIAGONAL * STEPS, STEPS, 0, 18 * STEPS};
    struct fradnumber_entry_written written = logged(answer, log, sizeof log);
    struct fradnumber_entry entry = fradnumber_read_entry(log, sizeof log, back, sizeof back);
    expect_true("logged", written.refusal == 0 && written.length == 64 + 32 * 32);
    expect_true("read", entry.refusal == 0 && entry.taken == 64 + 32 * 32 && entry.length == STEPS && same(back, due_route, STEPS));
    expect_true("its goal", fradnumber_number_at(entry.question, 4) == MOST_CELLS - 1);
    expect_true("its limit", fradnumber_number_at(entry.question, 8) == MOST_CELLS);
    expect_true("its settled count", fradnumber_number_at(entry.answer, 4) == answer.settled);
    expect_true("its cost", fradnumber_number_at(entry.answer, 8) == answer.number);
    expect_true("its Q", fradnumber_number_at(entry.answer, 20) == answer.q);
}

/* A way of more than 4,095 steps cannot be logged, and nothing is changed. */
static void not_logged(uint32_t steps, uint32_t cost)
{
    static uint8_t log[FRADNUMBER_LONGEST_ENTRY];
    struct fradnumber_answer answer = {FRADNUMBER_FOUND, 0, 0, 0, 0, 0, 0, 0};
    answer.settled = steps + 1;
    answer.number = cost;
    answer.length = steps;
    answer.p = 18 * (uint64_t)steps;
    fill(log, sizeof log);
    expect_true("a route too long for the log", logged(answer, log, sizeof log).refusal == FRADNUMBER_BAD_ANSWER && is_old(log, sizeof log));
}

int main(void)
{
    uint32_t cell;
    lay_corridors(GREATEST_SIDE);
    one_way("corridors", 524798, 661245480);
    claimed_way("corridors, claimed", 524798, 661245480, 4, FRADNUMBER_ENTERS_BLOCKED);
    tabled_way("corridors, their table");
    texts("corridors, as text");
    lay_stairs(GREATEST_SIDE);
    one_way("stairs", 697686, 879084360);
    claimed_way("stairs, claimed", 697686, 879084360, 2, FRADNUMBER_LEAVES_MAP);
    tabled_way("stairs, their table");
    texts("stairs, as text");
    not_logged(697686, 879084360);
    lay_level(GREATEST_SIDE);
    level_hall();
    logged_level_hall();
    along_the_wall();
    refusals();
    for (cell = 0; cell < cells; cell++) map[cell] = (uint8_t)(cell % 10);
    texts("every weight, as text");
    return end_of_test("halls");
}
