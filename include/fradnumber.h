/*
 * Fradnumber: calls for C and C++ programs on x86-64 Linux.
 *
 * Every number is an unsigned 32-bit number and may have any value: what is wrong with it is answered, and nothing is
 * narrowed before it is judged. A slice is a pointer and then a length. A null pointer with length 0 is an empty slice;
 * a null or wrong pointer with a positive length is the caller's fault, as it is for memcpy. What a const pointer lends is
 * only read. A room does not overlap another room, or anything else that the same call is lent. Calls keep nothing between
 * them and may run at the same time on rooms of their own.
 *
 * What each call promises is proved: docs/PROMISES.md. The rules, and what to do about each number: docs/MANUAL.md.
 */
#ifndef FRADNUMBER_H
#define FRADNUMBER_H

#include <stddef.h>
#include <stdint.h>

#ifdef __cplusplus
extern "C" {
#endif

/*
 * The version of this header, major * 10000 + minor * 100 + patch. The major number rises with a change that a program must
 * be changed for, the minor one with calls, fields at a struct's end or numbers that are new, the patch with all else. It
 * changes here and nowhere else; docs/C.md says what each version brought.
 */
#define FRADNUMBER_VERSION 40000

/*
 * The greatest width and height, how many cells a floor of both has, and how many bytes its text. Rooms of as many entries are
 * enough for any floor; the work room needs twice the cells.
 */
#define FRADNUMBER_GREATEST_SIDE 1024
#define FRADNUMBER_MOST_CELLS 1048576
#define FRADNUMBER_LONGEST_TEXT 1049639

/*
 * What is wrong: 0, a refusal (1 to 30, and of the route log 61 to 64), a cost table that is not right (40), or a fault in a
 * claimed route (41 to 46).
 */
enum fradnumber_number {
    FRADNUMBER_HOLDS = 0,              /* nothing: the claim holds, the table is right, what was asked was read or written */
    FRADNUMBER_BAD_SIDE = 1,           /* width or height is 0 or above 1024 */
    FRADNUMBER_BAD_LENGTH = 2,         /* the map's length is not width times height */
    FRADNUMBER_BAD_WEIGHT = 3,         /* a map byte is above 9; place: the lowest such cell */
    FRADNUMBER_BAD_WAYS = 4,           /* ways is neither 4 nor 8 */
    FRADNUMBER_START_OFF_MAP = 5,      /* start is not below width times height */
    FRADNUMBER_GOAL_OFF_MAP = 6,       /* goal is not below width times height */
    FRADNUMBER_START_BLOCKED = 7,      /* the start is blocked */
    FRADNUMBER_GOAL_BLOCKED = 8,       /* the goal is blocked */
    FRADNUMBER_SHORT_COSTS = 9,        /* the costs room is shorter than width times height */
    FRADNUMBER_SHORT_WORK = 10,        /* the work room is shorter than 2 times width times height */
    FRADNUMBER_SHORT_ROUTE = 11,       /* the route room is shorter than width times height */
    FRADNUMBER_ROUTE_TOO_LONG = 12,    /* the route is longer than width times height, less 1 */
    FRADNUMBER_ZERO_LIMIT = 15,        /* the limit is 0, with which no cell can be settled */
    FRADNUMBER_BAD_TYPE_LINE = 21,     /* the first line is not `type octile`; place: its start, as for 22 to 24 */
    FRADNUMBER_BAD_HEIGHT_LINE = 22,   /* the second line is not `height` and a number from 1 to 1024 */
    FRADNUMBER_BAD_WIDTH_LINE = 23,    /* the third line is not `width` and a number from 1 to 1024 */
    FRADNUMBER_BAD_MAP_LINE = 24,      /* the fourth line is not `map` */
    FRADNUMBER_NO_CELL = 25,           /* no cell character where a cell is due; place: the byte's offset */
    FRADNUMBER_NO_LINE_END = 26,       /* another byte than LF after a full row; place: the byte's offset */
    FRADNUMBER_ENDS_TOO_SOON = 27,     /* the text ends before its last row does; place: the text's length */
    FRADNUMBER_FURTHER_BYTE = 28,      /* a byte after the last row; place: its offset */
    FRADNUMBER_SHORT_CELLS = 29,       /* the cell room is shorter than width times height */
    FRADNUMBER_SHORT_TEXT = 30,        /* the text room is shorter than the text */
    FRADNUMBER_BREAKS_RULE = 40,       /* the cost table is not right; place: the lowest cell that breaks the rule */
    FRADNUMBER_NO_SUCH_DIRECTION = 41, /* a direction is above 7, or odd with four ways; place: the step */
    FRADNUMBER_LEAVES_MAP = 42,        /* a step leaves the map; place: the step */
    FRADNUMBER_ENTERS_BLOCKED = 43,    /* a step enters a blocked cell; place: the step */
    FRADNUMBER_CUTS_CORNER = 44,       /* a diagonal step passes a blocked cell; place: the step */
    FRADNUMBER_NOT_AT_GOAL = 45,       /* the route ends elsewhere; place: the route's length */
    FRADNUMBER_COST_DIFFERS = 46,      /* the route costs something else; place: the route's length */
    FRADNUMBER_LOG_ENDS_TOO_SOON = 61, /* the file ends inside the question or the answer, or inside the route */
    FRADNUMBER_BAD_ANSWER = 62,        /* the answer is none that can be logged */
    FRADNUMBER_BAD_DIRECTIONS = 63,    /* a direction is above 7, a filler is not 255, or the count given is wrong */
    FRADNUMBER_SHORT_LOG_ROOM = 64     /* the room is shorter than the route read, or than the entry written */
};

/* No cost. */
#define FRADNUMBER_MARK 4294967295u

/*
 * Checks a claimed route.
 *
 * map: width * height bytes, row by row, 0 blocked, 1 to 9 the weight of an open cell; cell y * width + x is in column x
 * and row y. route: one byte a step, 0 N, 1 NE, 2 E, 3 SE, 4 S, 5 SW, 6 W, 7 NW. A step costs 70, diagonal 99, times the
 * sum of the weights of the cell it leaves and the cell it enters, so that the step back costs the same.
 *
 * The answer's high half is the number of the refusal or of the fault, 0 if the claim holds; its low half is the place, or
 * the cost if it holds. The lowest refusal that applies is given; then the first faulty step; then 45 before 46. The route
 * need not be a least-cost route.
 */
uint64_t fradnumber_check_route(uint32_t width, uint32_t height, uint32_t ways,
                                const uint8_t *map, size_t map_length,
                                uint32_t start, uint32_t goal, uint32_t cost,
                                const uint8_t *route, size_t route_length);

/*
 * Checks a claimed cost table of a start, which also settles a claimed "none": in a right table the cells that cannot be
 * reached, and only those, have FRADNUMBER_MARK.
 *
 * The answer's high half is the number of the refusal, 0 if every reachable cell has its least cost and every other cell
 * FRADNUMBER_MARK, and else FRADNUMBER_BREAKS_RULE; its low half is the place, or the lowest cell that breaks the rule: a
 * blocked cell has FRADNUMBER_MARK, the start has 0, any other cell the smallest of value + step cost over the cells with a
 * step into it whose value is not FRADNUMBER_MARK. Costs past the first width * height are not looked at.
 */
uint64_t fradnumber_check_table(uint32_t width, uint32_t height, uint32_t ways,
                                const uint8_t *map, size_t map_length,
                                uint32_t start,
                                const uint32_t *costs, size_t costs_length);

/* The two halves of the answer about a claim. */
static inline uint32_t fradnumber_number_of(uint64_t answer) { return (uint32_t)(answer >> 32); }
static inline uint32_t fradnumber_value_of(uint64_t answer) { return (uint32_t)(answer & 0xffffffffu); }

enum fradnumber_kind {
    FRADNUMBER_REFUSED = 0, /* refusal and place say why; no room was changed */
    FRADNUMBER_FOUND = 1,   /* number is the goal's least cost; the route room begins with the route */
    FRADNUMBER_NONE = 2,    /* the goal cannot be reached; number is FRADNUMBER_MARK */
    FRADNUMBER_STOPPED = 3  /* the limit came first; number is the floor: no route to the goal costs less */
};

struct fradnumber_answer {
    uint64_t kind;    /* enum fradnumber_kind */
    uint64_t refusal; /* enum fradnumber_number, 0 unless refused */
    uint64_t place;   /* of the refusal */
    uint64_t settled; /* how many cells were settled, 0 if refused */
    uint64_t number;  /* the number returned, 0 if refused */
    uint64_t length;  /* the route's length, 0 unless found */
    uint64_t p;       /* the weights of both cells summed over the route's straight steps, 0 unless found */
    uint64_t q;       /* the same over its diagonal steps; if found, number is 70 * p + 99 * q */
};

/*
 * Searches a least-cost route, settling at most `limit` cells by cost and then by cell number.
 *
 * The limit is at least 1; with width * height or more, such as 4294967295, the search never stops at it. The refusals are 1
 * to 11 and 15, and the lowest that applies is given.
 *
 * The rooms may be longer than needed and hold anything. Afterwards, unless the question was refused, the first
 * width * height costs are the least costs of the settled cells and FRADNUMBER_MARK for all others, the first
 * 2 * width * height of work are 0, and, if a route was found, the route room begins with the first least-cost route, a byte
 * a step, from the start onwards. Everything further along is as it was.
 */
struct fradnumber_answer fradnumber_search(uint32_t width, uint32_t height, uint32_t ways,
                                           const uint8_t *map, size_t map_length,
                                           uint32_t start, uint32_t goal, uint32_t limit,
                                           uint32_t *costs, size_t costs_length,
                                           uint32_t *work, size_t work_length,
                                           uint8_t *route, size_t route_length);

/*
 * Searches a least-cost route by A*, for a single question: kind, number, route, p and q are those of fradnumber_search with
 * the limit at width * height, and mostly far fewer cells are settled. There is no limit, and no answer is
 * FRADNUMBER_STOPPED.
 *
 * The settled cells are exactly the reachable ones whose least cost plus estimate is at most the goal's least cost, or all
 * reachable cells if the goal is none of them. The estimate is 198 times the smaller of the two coordinate distances to the
 * goal plus 140 times what the larger one has more; with four ways it is 140 times their sum. The refusals are 1 to 11, and
 * the lowest that applies is given.
 *
 * The rooms are as long as for fradnumber_search and are left as it leaves them: the costs of the settled cells,
 * FRADNUMBER_MARK for all others, zeros in work, the first least-cost route if there is one, and everything further along
 * as it was.
 */
struct fradnumber_answer fradnumber_astar(uint32_t width, uint32_t height, uint32_t ways,
                                          const uint8_t *map, size_t map_length,
                                          uint32_t start, uint32_t goal,
                                          uint32_t *costs, size_t costs_length,
                                          uint32_t *work, size_t work_length,
                                          uint8_t *route, size_t route_length);

struct fradnumber_read {
    uint64_t refusal; /* enum fradnumber_number, 0 if the text is a map */
    uint64_t place;   /* of the refusal */
    uint64_t width;   /* 1 to 1024, 0 if refused */
    uint64_t height;  /* 1 to 1024, 0 if refused */
    uint64_t ways;    /* always 8, 0 if refused */
};

/*
 * Reads map text: the lines `type octile`, `height H`, `width W`, `map`, then H rows of W characters, every line ended by LF
 * alone, and nothing after. `.` and `G` are weight 1, `1` to `9` their own weight, `@`, `O` and `T` blocked.
 *
 * The cell room then begins with width * height bytes, row by row, as the calls above take them; the rest of it is as it
 * was. The whole text is judged before a byte is stored: a refusal changes nothing.
 */
struct fradnumber_read fradnumber_read_map(const uint8_t *text, size_t text_length,
                                           uint8_t *cells, size_t cells_length);

/*
 * What fradnumber_read_map would answer for a cell room of that many bytes; nothing is stored. FRADNUMBER_MOST_CELLS bytes are
 * always enough.
 */
struct fradnumber_read fradnumber_judge_map(const uint8_t *text, size_t text_length, size_t cells_length);

struct fradnumber_written {
    uint64_t refusal; /* enum fradnumber_number, 0 if the map was written */
    uint64_t place;   /* of the refusal */
    uint64_t length;  /* of the text in bytes, 0 if refused */
};

/*
 * Writes a map as text, with `@` for blocked cells, `.` for weight 1, and `2` to `9`. No byte follows the last row's LF: the
 * rest of the text room is as it was, and all of it is if the map is refused. FRADNUMBER_LONGEST_TEXT bytes are always enough.
 */
struct fradnumber_written fradnumber_write_map(uint32_t width, uint32_t height,
                                               const uint8_t *map, size_t map_length,
                                               uint8_t *text, size_t text_length);

/* The bytes of a question record, of an answer record, and of each record that a logged route fills. */
#define FRADNUMBER_RECORD_SIZE 32

/* The longest route that can be logged, and the bytes of the entry that holds it: no entry has more. */
#define FRADNUMBER_LONGEST_LOGGED 4095
#define FRADNUMBER_LONGEST_ENTRY 4160

struct fradnumber_entry {
    uint64_t refusal; /* enum fradnumber_number, 0 if the rest begins with an entry or is empty */
    uint64_t place;   /* of the refusal: always 0 */
    uint64_t length;  /* the route's length, 0 unless found */
    uint64_t taken;   /* how many bytes the entry has; 0 if the rest is refused or empty */
    uint8_t question[FRADNUMBER_RECORD_SIZE]; /* as it stands in the file; zeros if the rest is refused or empty */
    uint8_t answer[FRADNUMBER_RECORD_SIZE];   /* the same */
};

/*
 * Reads one entry of a route log from the rest of the file: a question record, an answer record and, if found, as many
 * records of the same size as hold the directions, the last filled up with 255.
 *
 * A file is read call after call, the rest beginning `taken` bytes further on each time, until refusal and `taken` are both
 * 0: then the rest is empty, and the file was whole. The refusals are, in this order, 61 in the question or the answer, 62,
 * 61 in the route, 63, 64. The route room then begins with the route, a byte a step, and the rest of it is as it was; all of
 * it is if there is no entry. Whether the route is allowed is not asked: that is for fradnumber_check_route.
 *
 * A room of FRADNUMBER_LONGEST_LOGGED bytes is enough for any route. The first FRADNUMBER_LONGEST_ENTRY bytes of the rest
 * are read as all of it is, so that a file need not be in memory whole; fewer, if more follow, may be told as 61 wrongly,
 * and no byte as the end.
 */
struct fradnumber_entry fradnumber_read_entry(const uint8_t *rest, size_t rest_length,
                                              uint8_t *route, size_t route_length);

struct fradnumber_entry_written {
    uint64_t refusal; /* enum fradnumber_number, 0 if the entry was written */
    uint64_t place;   /* of the refusal: always 0 */
    uint64_t length;  /* of the entry in bytes, 0 if refused */
};

/*
 * Writes one entry of a route log. Entries one after the other, with nothing between them, are a file.
 *
 * question and answer point to FRADNUMBER_RECORD_SIZE bytes each and have no length: a null pointer is the caller's fault.
 * The question may be any bytes. The answer can be logged if it is kind 0, a refusal number from 1 to 15 and zeros; or a
 * kind from 1 to 3, three zeros, any settled count, number, length, P, Q and eight zeros. For FRADNUMBER_FOUND the number is
 * any but FRADNUMBER_MARK, the length at most FRADNUMBER_LONGEST_LOGGED, and P and Q are any two: whether they give the
 * number is not tested. For FRADNUMBER_NONE the number is FRADNUMBER_MARK, for FRADNUMBER_STOPPED any other, and for both
 * length, P and Q are 0. There are as many directions as the length says.
 *
 * The refusals are 62, 63, 64, in this order. The room then begins with the entry, and the rest of it is as it was; all of
 * it is if the entry is refused. What was written reads back the same, and what was read writes back the same bytes.
 */
struct fradnumber_entry_written fradnumber_write_entry(const uint8_t question[FRADNUMBER_RECORD_SIZE],
                                                       const uint8_t answer[FRADNUMBER_RECORD_SIZE],
                                                       const uint8_t *directions, size_t directions_length,
                                                       uint8_t *room, size_t room_length);

/*
 * What stands in a record. A number of four bytes has its lowest byte first. These four functions are C, for the caller's
 * ease: no proof covers them, tests/c does.
 */
static inline uint32_t fradnumber_number_at(const uint8_t *record, size_t at)
{
    const uint8_t *bytes = record + at;
    return bytes[0] | ((uint32_t)bytes[1] << 8) | ((uint32_t)bytes[2] << 16) | ((uint32_t)bytes[3] << 24);
}

static inline void fradnumber_put_number(uint8_t *record, size_t at, uint32_t number)
{
    size_t i;
    for (i = 0; i < 4; i++) record[at + i] = (uint8_t)(number >> (8 * i));
}

/* Start, goal and limit at 0, 4 and 8, ways at 12, 19 zeros. Ways above 255 spoil the first zeros, and so are not lost. */
static inline void fradnumber_put_question(uint8_t record[FRADNUMBER_RECORD_SIZE],
                                           uint32_t start, uint32_t goal, uint32_t limit, uint32_t ways)
{
    size_t at;
    fradnumber_put_number(record, 0, start);
    fradnumber_put_number(record, 4, goal);
    fradnumber_put_number(record, 8, limit);
    fradnumber_put_number(record, 12, ways);
    for (at = 16; at < FRADNUMBER_RECORD_SIZE; at++) record[at] = 0;
}

/* Kind at 0, refusal at 1, two zeros; settled, number, length, P and Q at 4, 8, 12, 16, 20; eight zeros. It has no place. */
static inline void fradnumber_put_answer(uint8_t record[FRADNUMBER_RECORD_SIZE], struct fradnumber_answer answer)
{
    size_t at;
    fradnumber_put_number(record, 0, (uint32_t)(answer.kind | (answer.refusal << 8)));
    fradnumber_put_number(record, 4, (uint32_t)answer.settled);
    fradnumber_put_number(record, 8, (uint32_t)answer.number);
    fradnumber_put_number(record, 12, (uint32_t)answer.length);
    fradnumber_put_number(record, 16, (uint32_t)answer.p);
    fradnumber_put_number(record, 20, (uint32_t)answer.q);
    for (at = 24; at < FRADNUMBER_RECORD_SIZE; at++) record[at] = 0;
}

#ifdef __cplusplus
}
#endif

#endif
