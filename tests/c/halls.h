/*
 * Halls whose least costs can be told without a search: two with one way through them, from end to end and without a choice, and a
 * level one. They are laid with any side of 1,024 or less; the stairs need one that leaves 1 when divided by 3.
 */
#ifndef FRADNUMBER_TESTS_HALLS_H
#define FRADNUMBER_TESTS_HALLS_H

#include "answers.h"

enum { GREATEST_SIDE = 1024, MOST_CELLS = GREATEST_SIDE * GREATEST_SIDE, HEAVY = 9 };

/* A straight and a diagonal step between two cells of weight 9. */
enum { STRAIGHT = 70 * 2 * HEAVY, DIAGONAL = 99 * 2 * HEAVY };

static uint32_t side, cells;
static uint8_t map[MOST_CELLS];

/* The cells of the way from its start on, and how many there are; 0 where there is more than one way. */
static uint32_t way[MOST_CELLS], way_cells;

/* The least cost of each cell from the start, and the directions of the way. */
static uint32_t due[MOST_CELLS];
static uint8_t due_route[MOST_CELLS];

static inline uint32_t smaller(uint32_t a, uint32_t b) { return a < b ? a : b; }

static inline uint32_t apart(uint32_t a, uint32_t b) { return a < b ? b - a : a - b; }

static inline void all_blocked(uint32_t new_side)
{
    uint32_t cell;
    side = new_side;
    cells = side * side;
    way_cells = 0;
    for (cell = 0; cell < cells; cell++) {
        map[cell] = 0;
        due[cell] = FRADNUMBER_MARK;
    }
}

static inline uint8_t direction_between(uint32_t from, uint32_t to)
{
    if (to == from + 1) return 2;
    if (to == from - 1) return 6;
    return to == from + side ? 4 : 0;
}

/* The way goes on to the cell in column x and row y, straight from the cell before. */
static inline void go_on_to(uint32_t x, uint32_t y)
{
    uint32_t cell = y * side + x;
    map[cell] = HEAVY;
    due[cell] = STRAIGHT * way_cells;
    if (way_cells > 0) due_route[way_cells - 1] = direction_between(way[way_cells - 1], cell);
    way[way_cells++] = cell;
}

/* Every other row is a corridor, and a gap leads from each to the next, at its end. */
static inline void lay_corridors(uint32_t new_side)
{
    uint32_t x, y;
    all_blocked(new_side);
    for (y = 0; y < side; y += 2) {
        for (x = 0; x < side; x++) go_on_to(y % 4 == 0 ? x : side - 1 - x, y);
        if (y + 2 < side) go_on_to(y % 4 == 0 ? side - 1 : 0, y + 1);
    }
}

/* The greatest x - y, and less 0 the least, of the cells with x + y == sum. */
static inline uint32_t reach_of(uint32_t sum) { return smaller(sum, 2 * (side - 1) - sum); }

/* The cell with x + y == sum and x - y == east - west. */
static inline void go_on_along(uint32_t sum, uint32_t east, uint32_t west) { go_on_to((sum + east - west) / 2, (sum + west - east) / 2); }

/*
 * The cells with x + y == 3k stay blocked, but for one at an end of each such line. The two lines between are stairs: up to the
 * north-east for an even k, down to the south-west for an odd one. Beside an open end the stairs lack three cells, so that no square of
 * four cells is open. The way goes from the north-west corner to the south-east one, through nearly two thirds of all cells.
 */
static inline void lay_stairs(uint32_t new_side)
{
    uint32_t sum, at;
    all_blocked(new_side);
    go_on_to(0, 0);
    for (sum = 0; sum < 2 * (side - 1); sum += 3) {
        uint32_t from = reach_of(sum), to = reach_of(sum + 3); /* x - y goes from -from to to, or the other way, less these ends */
        for (at = 1; at < from + to; at++) {
            uint32_t line = sum + 2 - (sum + from + at) % 2; /* the one that has a cell there */
            if (sum % 2 == 0) go_on_along(line, at, from);
            else go_on_along(line, from, at);
        }
        if (sum % 2 == 0) go_on_along(sum + 3, to, 0);
        else go_on_along(sum + 3, 0, to);
    }
}

static inline uint32_t is_open(uint32_t x, uint32_t y) { return x < side && y < side && map[y * side + x] != 0; }

static inline uint32_t open_beside(uint32_t x, uint32_t y)
{
    return is_open(x + 1, y) + is_open(x - 1, y) + is_open(x, y + 1) + is_open(x, y - 1);
}

/*
 * Whether the way has every open cell, each next to the one before, and there is no other step: no cell has more than two open cells
 * beside it, the start no more than one, and no square of four cells is open, without which there is no diagonal step.
 */
static inline int has_one_way(void)
{
    uint32_t x, y, n, open = 0;
    for (y = 0; y < side; y++)
        for (x = 0; x < side; x++) {
            if (!is_open(x, y)) continue;
            open++;
            if (open_beside(x, y) > (due[y * side + x] == 0 ? 1u : 2u)) return 0;
            if (is_open(x + 1, y) && is_open(x, y + 1) && is_open(x + 1, y + 1)) return 0;
        }
    for (n = 1; n < way_cells; n++) {
        if (apart(way[n] % side, way[n - 1] % side) + apart(way[n] / side, way[n - 1] / side) != 1) return 0;
        if (due[way[n]] != STRAIGHT * n) return 0; /* the way would have passed the cell twice */
    }
    return open == way_cells;
}

/* Every cell is open, and the start is the north-west corner: a cell's diagonal steps come first, straight ones take the rest. */
static inline void lay_level(uint32_t new_side)
{
    uint32_t cell, small, large;
    all_blocked(new_side);
    for (cell = 0; cell < cells; cell++) {
        small = smaller(cell % side, cell / side);
        large = cell % side + cell / side - small;
        map[cell] = HEAVY;
        due[cell] = DIAGONAL * small + STRAIGHT * (large - small);
    }
    for (cell = 0; cell + 1 < side; cell++) due_route[cell] = 3;
}

#endif
