/*
 * The route log, called from C: entries read and written, every refusal at its edge and next to those tried after it, what is left
 * in the rooms, a file cut at every byte; and the header's own functions for records.
 */
#include "expect.h"

/* A record, a question and its answer, the same with one record of a route. */
enum { RECORD = FRADNUMBER_RECORD_SIZE, BOTH = 2 * RECORD, SHORT_ROUTE = 3 * RECORD };

enum { OLD = 77, ROOM = FRADNUMBER_LONGEST_ENTRY + 5 * RECORD };

/* The structs as the archive has them. A layout of the header that differs does not compile. */
typedef char entry_laid_out[sizeof(struct fradnumber_entry) == 96 && offsetof(struct fradnumber_entry, taken) == 24
                            && offsetof(struct fradnumber_entry, question) == 32 && offsetof(struct fradnumber_entry, answer) == 64 ? 1 : -1];
typedef char written_laid_out[sizeof(struct fradnumber_entry_written) == 24 ? 1 : -1];

static uint8_t file[ROOM], route[ROOM], room[ROOM];

static const struct fradnumber_answer stopped = {FRADNUMBER_STOPPED, 0, 0, 4, 560, 0, 0, 0};
static const struct fradnumber_answer none = {FRADNUMBER_NONE, 0, 0, 1, FRADNUMBER_MARK, 0, 0, 0};

/* Case a's answer, with a route of any length. */
static struct fradnumber_answer found(uint32_t length)
{
    struct fradnumber_answer answer = {FRADNUMBER_FOUND, 0, 0, 5, 560, 0, 8, 0};
    answer.length = length;
    return answer;
}

static struct fradnumber_answer refused(uint64_t refusal)
{
    struct fradnumber_answer answer = {FRADNUMBER_REFUSED, 0, 0, 0, 0, 0, 0, 0};
    answer.refusal = refusal;
    return answer;
}

/* The bytes from `from` to `to` are all this one. */
static int all(const uint8_t *bytes, size_t from, size_t to, uint8_t byte)
{
    for (; from < to; from++)
        if (bytes[from] != byte) return 0;
    return 1;
}

static void fill(uint8_t *bytes, size_t from, size_t to, uint8_t byte)
{
    for (; from < to; from++) bytes[from] = byte;
}

/* Lays an entry of `size` bytes without the writer: a question of 225, 226 and so on, and the directions 7 to 0 in turn. */
static size_t lay(uint8_t *at, struct fradnumber_answer answer, size_t size)
{
    size_t i;
    for (i = 0; i < RECORD; i++) at[i] = (uint8_t)(225 + i);
    fradnumber_put_answer(at + RECORD, answer);
    for (i = 0; i < answer.length && BOTH + i < size; i++) at[BOTH + i] = (uint8_t)(7 - i % 8);
    fill(at, BOTH + i, size, 255);
    return size;
}

/* The first `length` bytes of the file have no entry: nothing but the refusal is told, 0 if they are none, and the room is as it was. */
static void no_entry(const char *what, size_t length, size_t most, uint64_t refusal)
{
    struct fradnumber_entry entry;
    fill(route, 0, ROOM, OLD);
    entry = fradnumber_read_entry(file, length, route, most);
    expect_true(what, entry.refusal == refusal && entry.place == 0 && entry.length == 0 && entry.taken == 0);
    expect_true("the records of no entry", all(entry.question, 0, RECORD, 0) && all(entry.answer, 0, RECORD, 0));
    expect_true("the route room of no entry", all(route, 0, ROOM, OLD));
}

/* The answer that is the file's second record is not written with these directions, and the room is as it was. */
static void not_written(const char *what, const uint8_t *directions, size_t count, size_t most, uint64_t refusal)
{
    struct fradnumber_entry_written written;
    fill(room, 0, ROOM, OLD);
    written = fradnumber_write_entry(file, file + RECORD, directions, count, room, most);
    expect_true(what, written.refusal == refusal && written.place == 0 && written.length == 0);
    expect_true("the room of no entry", all(room, 0, ROOM, OLD));
}

/* The first `size` bytes of the file are an entry: it is read with any bytes after it, and written back as it stands. */
static void entry_of(const char *what, size_t count, size_t size)
{
    struct fradnumber_entry entry;
    struct fradnumber_entry_written written;
    fill(file, size, ROOM, 9);
    entry = fradnumber_read_entry(file, ROOM, route, count);
    expect_true("with bytes after it", entry.refusal == 0 && entry.length == count && entry.taken == size);
    fill(route, 0, ROOM, OLD);
    entry = fradnumber_read_entry(file, size, route, ROOM);
    expect_true(what, entry.refusal == 0 && entry.place == 0 && entry.length == count && entry.taken == size);
    expect_true("its records", same(entry.question, file, RECORD) && same(entry.answer, file + RECORD, RECORD));
    expect_true("its route, and the room after it", same(route, file + BOTH, count) && all(route, count, ROOM, OLD));
    fill(room, 0, ROOM, OLD);
    written = fradnumber_write_entry(entry.question, entry.answer, route, count, room, size);
    expect_true("written again", written.refusal == 0 && written.place == 0 && written.length == size);
    expect_true("its bytes, and the room after them", same(room, file, size) && all(room, size, ROOM, OLD));
    no_entry("without its last byte", size - 1, ROOM, FRADNUMBER_LOG_ENDS_TOO_SOON);
    not_written("a room too short", file + BOTH, count, size - 1, FRADNUMBER_SHORT_LOG_ROOM);
    if (count > 0) no_entry("a route room too short", size, count - 1, FRADNUMBER_SHORT_LOG_ROOM);
}

static void entries(void)
{
    static const struct { uint32_t count; size_t size; } lengths[] = {
        {0, 64}, {1, 96}, {16, 96}, {17, 96}, {31, 96}, {32, 96}, {33, 128}, {63, 128}, {64, 128}, {65, 160}, {4063, 4128}, {4064, 4128},
        {4065, 4160}, {4095, 4160}, {FRADNUMBER_LONGEST_LOGGED, FRADNUMBER_LONGEST_ENTRY}};
    static const uint8_t bytes[3] = {0, 128, 255};
    size_t i;
    for (i = 0; i < sizeof lengths / sizeof lengths[0]; i++) {
        lay(file, found(lengths[i].count), lengths[i].size);
        entry_of("found", lengths[i].count, lengths[i].size);
    }
    lay(file, stopped, BOTH);
    entry_of("stopped", 0, BOTH);
    lay(file, none, BOTH);
    entry_of("none", 0, BOTH);
    for (i = 1; i <= 15; i++) {
        lay(file, refused(i), BOTH);
        entry_of("refused", 0, BOTH);
    }
    for (i = 0; i < 3; i++) {
        lay(file, found(4), SHORT_ROUTE);
        fill(file, 0, RECORD, bytes[i]);
        entry_of("any question", 4, SHORT_ROUTE);
    }
}

/* The answer that is the file's second record cannot be logged, read or written. */
static void no_answer(const char *what)
{
    no_entry(what, ROOM, ROOM, FRADNUMBER_BAD_ANSWER);
    no_entry("before 61 in the route", BOTH, 0, FRADNUMBER_BAD_ANSWER);
    no_entry("after 61 in the answer", BOTH - 1, 0, FRADNUMBER_LOG_ENDS_TOO_SOON);
    not_written(what, route, 0, ROOM, FRADNUMBER_BAD_ANSWER);
    not_written("before 63 and 64", file + RECORD, 7, 0, FRADNUMBER_BAD_ANSWER);
}

static void bad_numbers(const char *what, uint64_t kind, uint64_t refusal, uint64_t number, uint64_t length)
{
    struct fradnumber_answer answer = {0, 0, 0, 5, 0, 0, 0, 0};
    answer.kind = kind;
    answer.refusal = refusal;
    answer.number = number;
    answer.length = length;
    if (kind == FRADNUMBER_REFUSED) answer.settled = 0;
    fill(file, 0, ROOM, 1);
    fradnumber_put_answer(file + RECORD, answer);
    no_answer(what);
}

static void bad_answers(void)
{
    bad_numbers("a kind of 4", 4, 0, 560, 0);
    bad_numbers("a kind of 255", 255, 0, 560, 0);
    bad_numbers("refused, with no number", 0, 0, 0, 0);
    bad_numbers("refused as 16", 0, 16, 0, 0);
    bad_numbers("refused as 255", 0, 255, 0, 0);
    bad_numbers("found at MARK", 1, 0, FRADNUMBER_MARK, 4);
    bad_numbers("found with 4096 steps", 1, 0, 560, 4096);
    bad_numbers("found with a step too many", 1, 0, 560, FRADNUMBER_LONGEST_LOGGED + 1);
    bad_numbers("found with 2^31 steps", 1, 0, 560, 2147483648u);
    bad_numbers("none, with another number than MARK", 2, 0, FRADNUMBER_MARK - 1, 0);
    bad_numbers("none, with a step", 2, 0, FRADNUMBER_MARK, 1);
    bad_numbers("stopped at MARK", 3, 0, FRADNUMBER_MARK, 0);
    bad_numbers("stopped, with 2^24 steps", 3, 0, 560, 16777216);
    lay(file, found(4), SHORT_ROUTE);
    fill(file, RECORD + 4, RECORD + 8, 255);
    entry_of("any settled count", 4, SHORT_ROUTE);
    file[RECORD + 8] = 254;
    fill(file, RECORD + 9, RECORD + 12, 255);
    entry_of("a cost of MARK - 1", 4, SHORT_ROUTE);
}

/*
 * Whether this byte of an answer of the kind must be 0: all that follow a refusal number; else the three after the kind, length, P and Q
 * unless found, and the last eight.
 */
static int must_be_0(size_t kind, size_t at)
{
    if (kind == FRADNUMBER_REFUSED) return at >= 2;
    return (at >= 1 && at < 4) || (kind != FRADNUMBER_FOUND && at >= 12) || at >= 24;
}

/* Each byte that must be 0 is another; and those of P and Q, which are any if found and are not held against the cost. */
static void zeros_and_sums(void)
{
    const struct fradnumber_answer good[4] = {refused(1), found(4), none, stopped};
    static const uint8_t bytes[3] = {1, 128, 255};
    size_t kind, at, i;
    for (kind = 0; kind < 4; kind++)
        for (at = 0; at < RECORD; at++)
            for (i = 0; i < 3; i++) {
                lay(file, good[kind], SHORT_ROUTE);
                file[RECORD + at] = bytes[i];
                if (must_be_0(kind, at)) no_answer("a byte that must be 0");
                else if (at >= 16) entry_of("any P and Q", 4, SHORT_ROUTE);
            }
    for (i = 0; i < 2; i++) {
        lay(file, found(4), SHORT_ROUTE);
        fill(file, RECORD + 16, RECORD + 24, (uint8_t)(255 * i));
        entry_of("P and Q that do not give the cost", 4, SHORT_ROUTE);
    }
}

/* A found entry of one step more than a record holds, and its size. */
enum { STEPS = RECORD + 1, LONG_ROUTE = 4 * RECORD };

/* The byte of that entry is spoilt: 63, after 61 and before 64. */
static void bad_byte(size_t at, uint8_t byte)
{
    lay(file, found(STEPS), LONG_ROUTE);
    file[at] = byte;
    no_entry("a byte of the route", LONG_ROUTE, ROOM, FRADNUMBER_BAD_DIRECTIONS);
    no_entry("and a room too short", LONG_ROUTE, STEPS - 1, FRADNUMBER_BAD_DIRECTIONS);
    no_entry("and no room", LONG_ROUTE, 0, FRADNUMBER_BAD_DIRECTIONS);
    no_entry("and the file too short", LONG_ROUTE - 1, 0, FRADNUMBER_LOG_ENDS_TOO_SOON);
    if (at < BOTH + STEPS) not_written("a direction above 7", file + BOTH, STEPS, 0, FRADNUMBER_BAD_DIRECTIONS);
}

static void bad_routes(void)
{
    static const uint8_t above[4] = {8, 9, 128, 255}, filler[3] = {0, 7, 254}, norths[2 * STEPS] = {0};
    size_t i, at;
    for (i = 0; i < 4; i++)
        for (at = BOTH; at < BOTH + STEPS; at++) bad_byte(at, above[i]);
    for (i = 0; i < 3; i++)
        for (at = BOTH + STEPS; at < LONG_ROUTE; at++) bad_byte(at, filler[i]);
    lay(file, found(STEPS), LONG_ROUTE);
    for (i = 0; i < sizeof norths; i++)
        if (i != STEPS) not_written("a wrong count", norths, i, 0, FRADNUMBER_BAD_DIRECTIONS);
    lay(file, none, BOTH);
    not_written("a direction for none", norths, 1, ROOM, FRADNUMBER_BAD_DIRECTIONS);
    lay(file, refused(8), BOTH);
    not_written("a direction for refused", norths, 1, ROOM, FRADNUMBER_BAD_DIRECTIONS);
}

/* Case a as a question, and its answer. */
static const uint8_t asked[RECORD] = {0, 0, 0, 0, 2, 0, 0, 0, 5, 0, 0, 0, 8};
static const uint8_t answered[RECORD] = {1, 0, 0, 0, 5, 0, 0, 0, 48, 2, 0, 0, 4, 0, 0, 0, 8};

/* The entry of both with the route 4 2 2 0. */
static void lay_case_a(void)
{
    static const uint8_t steps[4] = {4, 2, 2, 0};
    size_t at;
    for (at = 0; at < RECORD; at++) {
        file[at] = asked[at];
        file[RECORD + at] = answered[at];
        file[BOTH + at] = at < 4 ? steps[at] : 255;
    }
}

/* What the manual says of changes to an entry of 96 bytes ("An entry of 96 bytes"): bytes changed, bytes left, the route room. */
static void changes(void)
{
    static const struct { size_t from, to; uint8_t byte; size_t left, most; uint64_t refusal; } change[] = {
        {0, 0, 0, 1, 4, 61}, {0, 0, 0, 32, 4, 61}, {0, 0, 0, 63, 4, 61}, {0, 0, 0, 64, 4, 61}, {0, 0, 0, 95, 4, 61},
        {0, 32, 200, 96, 4, 0}, {36, 40, 255, 96, 4, 0}, {48, 52, 255, 96, 4, 0}, {52, 56, 255, 96, 4, 0}, {48, 56, 0, 96, 4, 0},
        {32, 33, 0, 96, 4, 62}, {32, 33, 2, 96, 4, 62}, {32, 33, 3, 96, 4, 62}, {33, 34, 1, 96, 4, 62}, {34, 35, 1, 96, 4, 62},
        {56, 57, 1, 96, 4, 62}, {63, 64, 1, 96, 4, 62}, {63, 64, 1, 64, 4, 62}, {40, 44, 255, 96, 4, 62}, {40, 44, 255, 64, 4, 62},
        {44, 45, 33, 96, 33, 61}, {44, 45, 3, 96, 4, 63}, {44, 45, 5, 96, 5, 63}, {64, 65, 8, 96, 4, 63}, {95, 96, 0, 96, 4, 63},
        {64, 65, 8, 95, 4, 61}, {95, 96, 0, 95, 4, 61}, {0, 0, 0, 96, 3, 64}, {64, 65, 8, 96, 3, 63}};
    size_t i;
    for (i = 0; i < sizeof change / sizeof change[0]; i++) {
        lay_case_a();
        fill(file, change[i].from, change[i].to, change[i].byte);
        if (change[i].refusal == 0) entry_of("a change that is read", 4, 96);
        else no_entry("a change that is refused", change[i].left, change[i].most, change[i].refusal);
    }
}

/* Files from before the records had 32 bytes are no longer read: case a's entry in records of 16 bytes, once, and twice. */
static void older_files(void)
{
    static const uint8_t entry[48] = {0, 0, 0, 0, 2, 0, 0, 0, 5, 0, 0, 0, 8, 0, 0, 0, 1, 0, 0, 0, 5, 0, 0, 0, 48, 2, 0, 0, 4, 0, 0, 0,
                                      4, 2, 2, 0, 255, 255, 255, 255, 255, 255, 255, 255, 255, 255, 255, 255};
    size_t at;
    for (at = 0; at < 96; at++) file[at] = entry[at % 48];
    no_entry("an older file of an entry", 48, ROOM, FRADNUMBER_LOG_ENDS_TOO_SOON);
    no_entry("an older file of two", 96, ROOM, FRADNUMBER_BAD_ANSWER);
}

/* Null pointers are slices of length 0. */
static void nothing(void)
{
    struct fradnumber_entry entry;
    no_entry("an empty rest", 0, ROOM, 0);
    entry = fradnumber_read_entry(0, 0, 0, 0);
    expect_true("no rest and no room", entry.refusal == 0 && entry.place == 0 && entry.length == 0 && entry.taken == 0);
    lay(file, stopped, BOTH);
    entry = fradnumber_read_entry(file, BOTH, 0, 0);
    expect_true("no room for no route", entry.refusal == 0 && entry.taken == BOTH && same(entry.answer, file + RECORD, RECORD));
    expect_true("no directions", fradnumber_write_entry(file, file + RECORD, 0, 0, room, BOTH).length == BOTH && same(room, file, BOTH));
    expect_true("no directions and no room", fradnumber_write_entry(file, file + RECORD, 0, 0, 0, 0).refusal == FRADNUMBER_SHORT_LOG_ROOM);
    lay(file, found(1), SHORT_ROUTE);
    expect_true("no room for a route", fradnumber_read_entry(file, SHORT_ROUTE, 0, 0).refusal == FRADNUMBER_SHORT_LOG_ROOM);
    expect_true("a route of no directions", fradnumber_write_entry(file, file + RECORD, 0, 0, room, SHORT_ROUTE).refusal == FRADNUMBER_BAD_DIRECTIONS);
}

/* Reads a file of `length` bytes in pieces of at most `piece`, writes its entries one after the other, and gives how it ended. */
static uint64_t copy_file(size_t length, size_t piece, size_t *copied)
{
    struct fradnumber_entry entry;
    size_t at = 0, left;
    *copied = 0;
    fill(room, 0, ROOM, OLD);
    for (;;) {
        left = length - at;
        entry = fradnumber_read_entry(file + at, left < piece ? left : piece, route, FRADNUMBER_LONGEST_LOGGED);
        if (entry.refusal != 0 || entry.taken == 0) return entry.refusal;
        *copied += (size_t)fradnumber_write_entry(entry.question, entry.answer, route, (size_t)entry.length, room + *copied, ROOM - *copied).length;
        at += (size_t)entry.taken;
    }
}

/* A file cut at any byte has the entries that are whole before the cut, and breaks off there unless the cut is at an end of one. */
static void files(void)
{
    size_t ends[4] = {0, 0, 0, 0}, cut, last = 0, copied;
    uint64_t ending;
    ends[1] = lay(file, found(4), SHORT_ROUTE);
    ends[2] = ends[1] + lay(file + ends[1], stopped, BOTH);
    ends[3] = ends[2] + lay(file + ends[2], found(STEPS), LONG_ROUTE);
    for (cut = 0; cut <= ends[3]; cut++) {
        while (last < 3 && ends[last + 1] <= cut) last++;
        ending = copy_file(cut, ROOM, &copied);
        expect_true("how the cut file ends", ending == (cut == ends[last] ? 0 : FRADNUMBER_LOG_ENDS_TOO_SOON));
        expect_true("the entries before the cut", copied == ends[last] && same(room, file, copied) && all(room, copied, ROOM, OLD));
    }
    ends[1] = lay(file, none, BOTH);
    ends[2] = ends[1] + lay(file + ends[1], found(FRADNUMBER_LONGEST_LOGGED), FRADNUMBER_LONGEST_ENTRY);
    ends[3] = ends[2] + lay(file + ends[2], refused(13), BOTH);
    ending = copy_file(ends[3], FRADNUMBER_LONGEST_ENTRY, &copied);
    expect_true("a file in pieces of the longest entry", ending == 0 && copied == ends[3] && same(room, file, copied));
}

/* The header's functions, by the paper's example and by numbers of four different bytes. */
static void records(void)
{
    static const uint8_t unreached[RECORD] = {2, 0, 0, 0, 1, 0, 0, 0, 255, 255, 255, 255}, not_asked[RECORD] = {0, 13};
    static const uint8_t numbers[RECORD] = {4, 3, 2, 1, 255, 255, 255, 255, 0, 0, 0, 128, 8, 1};
    static const uint8_t any[RECORD] = {1, 0, 0, 0, 4, 3, 2, 1, 8, 7, 6, 5, 12, 11, 10, 9, 16, 15, 14, 13, 20, 19, 18, 17};
    static const struct fradnumber_answer any_answer = {FRADNUMBER_FOUND, 0, 99, 0x01020304, 0x05060708, 0x090a0b0c, 0x0d0e0f10, 0x11121314};
    uint8_t record[RECORD];
    fill(record, 0, RECORD, OLD);
    fradnumber_put_question(record, 0, 2, 5, 8);
    expect_true("case a's question", same(record, asked, RECORD));
    fill(record, 0, RECORD, OLD);
    fradnumber_put_answer(record, found(4));
    expect_true("case a's answer", same(record, answered, RECORD));
    fradnumber_put_answer(record, none);
    expect_true("case g's answer", same(record, unreached, RECORD));
    fradnumber_put_answer(record, refused(13));
    expect_true("refused as 13", same(record, not_asked, RECORD));
    fradnumber_put_question(record, 16909060, 4294967295u, 2147483648u, 264);
    expect_true("a question of any numbers", same(record, numbers, RECORD));
    expect_true("and back", fradnumber_number_at(record, 0) == 16909060 && fradnumber_number_at(record, 4) == 4294967295u
                                && fradnumber_number_at(record, 8) == 2147483648u && fradnumber_number_at(record, 12) == 264);
    fradnumber_put_answer(record, any_answer);
    expect_true("an answer of any numbers", same(record, any, RECORD));
    expect_true("its P and Q", fradnumber_number_at(record, 16) == 0x0d0e0f10 && fradnumber_number_at(record, 20) == 0x11121314);
}

int main(void)
{
    entries();
    bad_answers();
    zeros_and_sums();
    bad_routes();
    changes();
    older_files();
    nothing();
    files();
    records();
    return end_of_test("route log");
}
