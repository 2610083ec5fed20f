/* Reads a question of bench/count_floor.rs, makes one call, or none if the word is "without", and writes how many cells were settled. */
#include "fradnumber.h"

long read(int file, void *bytes, size_t length);
int printf(const char *format, ...);

enum { SIDE = FRADNUMBER_GREATEST_SIDE, CELLS = FRADNUMBER_MOST_CELLS };

static uint32_t question[3], costs[CELLS], work[2 * CELLS];
static uint8_t map[CELLS], route[CELLS];

static void read_all(void *room, size_t length)
{
    uint8_t *bytes = room;
    long got;
    while (length > 0 && (got = read(0, bytes, length)) > 0) {
        bytes += got;
        length -= (size_t)got;
    }
}

int main(int words, char **word)
{
    struct fradnumber_answer answer = {0};
    uint32_t side;
    size_t cells;
    read_all(question, sizeof question);
    side = question[0];
    cells = (size_t)side * side;
    if (side > SIDE)
        return 1;
    read_all(map, cells);
    if (words == 2 && word[1][4] == '\0') { /* "with" */
#ifdef CALL_ASTAR
        answer = fradnumber_astar(side, side, 8, map, cells, question[1], question[2], costs, cells, work, 2 * cells, route, cells);
#else
        answer = fradnumber_search(side, side, 8, map, cells, question[1], question[2], (uint32_t)cells, costs, cells, work, 2 * cells, route, cells);
#endif
    }
    printf("%u\n", (unsigned)answer.settled);
    return 0;
}
