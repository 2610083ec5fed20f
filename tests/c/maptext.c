/*
 * The map text, called from C: a map read, judged and written, every refusal at its edge, and what is left in the rooms.
 */
#include "expect.h"

enum { ROOM = 64, OLD = 77, SIDE = 1024, MOST = SIDE * SIDE, LONGEST = 1049639 };

static uint8_t cells[ROOM], room[ROOM];

/* Case a of the customer's paper: .@. over ... */
static const uint8_t a[6] = {1, 0, 1, 1, 1, 1};
static const char of_a[] = "type octile\nheight 2\nwidth 3\nmap\n.@.\n...\n";

static size_t length_of(const char *text)
{
    size_t n = 0;
    while (text[n] != '\0') n++;
    return n;
}

/* The room is as it was, from byte `from` on. */
static int is_old(const uint8_t *bytes, size_t from)
{
    for (; from < ROOM; from++)
        if (bytes[from] != OLD) return 0;
    return 1;
}

static void clear(uint8_t *bytes)
{
    size_t i;
    for (i = 0; i < ROOM; i++) bytes[i] = OLD;
}

static int is_read(struct fradnumber_read read, uint64_t refusal, uint64_t place, uint64_t width, uint64_t height)
{
    return read.refusal == refusal && read.place == place && read.width == width && read.height == height
           && read.ways == (refusal == 0 ? 8u : 0u);
}

/* The text is refused, by judging too, and the cell room is as it was. */
static void refused(const char *text, size_t length, size_t most, uint64_t refusal, uint64_t place)
{
    const uint8_t *bytes = (const uint8_t *)text;
    clear(cells);
    expect_true(text, is_read(fradnumber_read_map(bytes, length, cells, most), refusal, place, 0, 0));
    expect_true(text, is_read(fradnumber_judge_map(bytes, length, most), refusal, place, 0, 0));
    expect_true("the room of a text that is refused", is_old(cells, 0));
}

static void reading(void)
{
    static const uint8_t weights[15] = {1, 1, 1, 2, 3, 4, 5, 6, 7, 8, 9, 0, 0, 0, 1};
    const uint8_t *text = (const uint8_t *)of_a;
    const char *all = "type octile\nheight 1\nwidth 15\nmap\n.G123456789@OT.\n";
    clear(cells);
    expect_true("case a", is_read(fradnumber_read_map(text, 41, cells, ROOM), FRADNUMBER_HOLDS, 0, 3, 2));
    expect_true("the cells of case a", same(cells, a, 6) && is_old(cells, 6));
    clear(cells);
    expect_true("a room of just the cells", is_read(fradnumber_read_map(text, 41, cells, 6), 0, 0, 3, 2) && is_old(cells, 6));
    expect_true("case a judged", is_read(fradnumber_judge_map(text, 41, 6), FRADNUMBER_HOLDS, 0, 3, 2));
    expect_true("every cell character", is_read(fradnumber_read_map((const uint8_t *)all, length_of(all), cells, ROOM), 0, 0, 15, 1));
    expect_true("their weights", same(cells, weights, 15));
}

static void header_refusals(void)
{
    refused("", 0, ROOM, FRADNUMBER_BAD_TYPE_LINE, 0);
    expect_true("no text", is_read(fradnumber_read_map(0, 0, 0, 0), FRADNUMBER_BAD_TYPE_LINE, 0, 0, 0));
    refused("type octilE\n", 12, ROOM, FRADNUMBER_BAD_TYPE_LINE, 0);
    refused(of_a, 12, ROOM, FRADNUMBER_BAD_HEIGHT_LINE, 12);
    refused("type octile\nheight 0\n", 21, ROOM, FRADNUMBER_BAD_HEIGHT_LINE, 12);
    refused("type octile\nheight 1025\nwidth 1\nmap\n", 36, ROOM, FRADNUMBER_BAD_HEIGHT_LINE, 12);
    refused(of_a, 21, ROOM, FRADNUMBER_BAD_WIDTH_LINE, 21);
    refused("type octile\nheight 2\nwidth 1025\nmap\n", 36, ROOM, FRADNUMBER_BAD_WIDTH_LINE, 21);
    refused("type octile\nheight 2\nwidth 03\nmap\n", 34, ROOM, FRADNUMBER_BAD_WIDTH_LINE, 21);
    refused("type octile\nheight 2\nwidth 4294967299\nmap\n", 42, ROOM, FRADNUMBER_BAD_WIDTH_LINE, 21);
    refused("type octile\nheight 2\nwidth 3\nmaps\n", 34, ROOM, FRADNUMBER_BAD_MAP_LINE, 29);
    refused("type octile\nheight 1024\nwidth 1\nmap\n", 36, 1023, FRADNUMBER_SHORT_CELLS, 0);
    refused("type octile\nheight 1\nwidth 1024\nmap\n", 36, 1023, FRADNUMBER_SHORT_CELLS, 0);
    refused(of_a, 41, 5, FRADNUMBER_SHORT_CELLS, 0);
    refused("type octile\nheight 2\nwidth 3\nmap\n.S.\n...\n", 41, 5, FRADNUMBER_SHORT_CELLS, 0);
}

static void row_refusals(void)
{
    refused("type octile\nheight 2\nwidth 3\nmap\n.@.\n..W\n", 41, ROOM, FRADNUMBER_NO_CELL, 39);
    refused("type octile\nheight 2\nwidth 3\nmap\n.@\n...\n", 40, ROOM, FRADNUMBER_NO_CELL, 35);
    refused("type octile\nheight 2\nwidth 3\nmap\n.@..\n...\n", 42, ROOM, FRADNUMBER_NO_LINE_END, 36);
    refused("type octile\nheight 2\nwidth 3\nmap\n.@.\r\n...\n", 42, ROOM, FRADNUMBER_NO_LINE_END, 36);
    refused(of_a, 33, ROOM, FRADNUMBER_ENDS_TOO_SOON, 33);
    refused(of_a, 40, ROOM, FRADNUMBER_ENDS_TOO_SOON, 40);
    refused("type octile\nheight 2\nwidth 3\nmap\n.@.\n...\n\n", 42, ROOM, FRADNUMBER_FURTHER_BYTE, 41);
}

static int is_written(struct fradnumber_written written, uint64_t refusal, uint64_t place, uint64_t length)
{
    return written.refusal == refusal && written.place == place && written.length == length;
}

static void writing(void)
{
    static const uint8_t heavy[6] = {1, 1, 9, 10, 1, 11};
    clear(room);
    expect_true("width 0", is_written(fradnumber_write_map(0, 2, a, 6, room, ROOM), FRADNUMBER_BAD_SIDE, 0, 0));
    expect_true("height 1025", is_written(fradnumber_write_map(3, 1025, a, 6, room, ROOM), FRADNUMBER_BAD_SIDE, 0, 0));
    expect_true("width 1025", is_written(fradnumber_write_map(1025, 2, a, 6, room, ROOM), FRADNUMBER_BAD_SIDE, 0, 0));
    expect_true("height 1024", is_written(fradnumber_write_map(3, 1024, a, 6, room, ROOM), FRADNUMBER_BAD_LENGTH, 0, 0));
    expect_true("width 1024", is_written(fradnumber_write_map(1024, 2, a, 6, room, ROOM), FRADNUMBER_BAD_LENGTH, 0, 0));
    expect_true("height 2^32 - 1", is_written(fradnumber_write_map(3, 4294967295u, a, 6, room, ROOM), FRADNUMBER_BAD_SIDE, 0, 0));
    expect_true("a map too short", is_written(fradnumber_write_map(3, 2, a, 5, room, ROOM), FRADNUMBER_BAD_LENGTH, 0, 0));
    expect_true("a weight of 10", is_written(fradnumber_write_map(3, 2, heavy, 6, room, ROOM), FRADNUMBER_BAD_WEIGHT, 3, 0));
    expect_true("a room too short", is_written(fradnumber_write_map(3, 2, a, 6, room, 40), FRADNUMBER_SHORT_TEXT, 0, 0));
    expect_true("no room", is_written(fradnumber_write_map(3, 2, a, 6, 0, 0), FRADNUMBER_SHORT_TEXT, 0, 0));
    expect_true("the room of a map that is refused", is_old(room, 0));
    expect_true("a room of just the text", is_written(fradnumber_write_map(3, 2, a, 6, room, 41), FRADNUMBER_HOLDS, 0, 41));
    expect_true("the text of case a", same(room, (const uint8_t *)of_a, 41) && is_old(room, 41));
}

/* The sizes that the header names are those of the longest text. A number that differs does not compile. */
typedef char sizes_named[FRADNUMBER_GREATEST_SIDE == SIDE && FRADNUMBER_MOST_CELLS == MOST && FRADNUMBER_LONGEST_TEXT == LONGEST ? 1 : -1];

/* The longest text there is, written, read back and written again. */
static void longest(void)
{
    static uint8_t map[MOST], back[MOST], text[LONGEST], again[LONGEST];
    struct fradnumber_read read;
    size_t i;
    for (i = 0; i < MOST; i++) map[i] = (uint8_t)(i % 10);
    expect_true("the longest text", is_written(fradnumber_write_map(SIDE, SIDE, map, MOST, text, LONGEST), 0, 0, LONGEST));
    expect_true("a byte less of room", is_written(fradnumber_write_map(SIDE, SIDE, map, MOST, text, LONGEST - 1), FRADNUMBER_SHORT_TEXT, 0, 0));
    read = fradnumber_read_map(text, LONGEST, back, MOST);
    expect_true("the longest text read", is_read(read, 0, 0, SIDE, SIDE) && same(map, back, MOST));
    expect_true("a cell less of room", is_read(fradnumber_judge_map(text, LONGEST, MOST - 1), FRADNUMBER_SHORT_CELLS, 0, 0, 0));
    expect_true("and written again", is_written(fradnumber_write_map((uint32_t)read.width, (uint32_t)read.height, back, MOST, again, LONGEST), 0, 0, LONGEST)
                                         && same(text, again, LONGEST));
}

int main(void)
{
    reading();
    header_refusals();
    row_refusals();
    writing();
    longest();
    return end_of_test("map text");
}
