/*
 * What the examples share: refusals and faults in words, and numbers from words.
 */
#ifndef FRADNUMBER_EXAMPLES_WORDS_H
#define FRADNUMBER_EXAMPLES_WORDS_H

#include <errno.h>
#include <stdlib.h>

#include "fradnumber.h"

/* What each number of the header means. */
static const char *in_words(uint64_t number)
{
    switch (number) {
    case FRADNUMBER_HOLDS: return "holds";
    case FRADNUMBER_BAD_SIDE: return "a side is 0 or above 1024";
    case FRADNUMBER_BAD_LENGTH: return "the map has another length than width times height";
    case FRADNUMBER_BAD_WEIGHT: return "a weight is above 9";
    case FRADNUMBER_BAD_WAYS: return "ways is neither 4 nor 8";
    case FRADNUMBER_START_OFF_MAP: return "the start is off the map";
    case FRADNUMBER_GOAL_OFF_MAP: return "the goal is off the map";
    case FRADNUMBER_START_BLOCKED: return "the start is blocked";
    case FRADNUMBER_GOAL_BLOCKED: return "the goal is blocked";
    case FRADNUMBER_SHORT_COSTS: return "the costs room is too short";
    case FRADNUMBER_SHORT_WORK: return "the work room is too short";
    case FRADNUMBER_SHORT_ROUTE: return "the route room is too short";
    case FRADNUMBER_ROUTE_TOO_LONG: return "the route has as many steps as there are cells, or more";
    case FRADNUMBER_ZERO_LIMIT: return "the limit is 0, and must be at least 1";
    case FRADNUMBER_BAD_TYPE_LINE: return "the first line is not `type octile`";
    case FRADNUMBER_BAD_HEIGHT_LINE: return "the second line is not `height` and a number from 1 to 1024";
    case FRADNUMBER_BAD_WIDTH_LINE: return "the third line is not `width` and a number from 1 to 1024";
    case FRADNUMBER_BAD_MAP_LINE: return "the fourth line is not `map`";
    case FRADNUMBER_NO_CELL: return "no cell character where a cell is due";
    case FRADNUMBER_NO_LINE_END: return "another byte than LF after a full row";
    case FRADNUMBER_ENDS_TOO_SOON: return "the text ends too soon";
    case FRADNUMBER_FURTHER_BYTE: return "a further byte after the last row";
    case FRADNUMBER_SHORT_CELLS: return "the cell room is too short";
    case FRADNUMBER_SHORT_TEXT: return "the text room is too short";
    case FRADNUMBER_BREAKS_RULE: return "the cost table is not right";
    case FRADNUMBER_NO_SUCH_DIRECTION: return "there is no such direction";
    case FRADNUMBER_LEAVES_MAP: return "the step leaves the map";
    case FRADNUMBER_ENTERS_BLOCKED: return "the step enters a blocked cell";
    case FRADNUMBER_CUTS_CORNER: return "the step cuts a corner";
    case FRADNUMBER_NOT_AT_GOAL: return "the route does not end at the goal";
    case FRADNUMBER_COST_DIFFERS: return "the route costs something else";
    case FRADNUMBER_LOG_ENDS_TOO_SOON: return "the log ends inside an entry";
    case FRADNUMBER_BAD_ANSWER: return "the answer cannot be logged";
    case FRADNUMBER_BAD_DIRECTIONS: return "a direction, a filler or the count of directions is wrong";
    case FRADNUMBER_SHORT_LOG_ROOM: return "the room is too short for the route or the entry";
    default: return "no number of this header";
    }
}

/* 1 if the whole text is a number from 0 to 4294967295. */
static inline int number_of(const char *text, uint32_t *number)
{
    char *end;
    unsigned long long n;
    if (text[0] < '0' || text[0] > '9') return 0;
    errno = 0;
    n = strtoull(text, &end, 10);
    if (errno != 0 || *end != '\0' || n > 4294967295u) return 0;
    *number = (uint32_t)n;
    return 1;
}

#endif
