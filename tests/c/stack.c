/*
 * How much of the stack each call takes, on full halls and on floors of 16 by 16 cells: the same, and little. A call runs on a stack of
 * its own that was painted before, and what it has written over is counted, the frame that passes its arguments included.
 *
 * The processor's names are in this file alone: C has no word for another stack.
 */
#include "halls.h"

enum { STACK = 65536, SMALL_SIDE = 16 };

/* No call may go deeper, in bytes; docs/C.md has what each takes. */
enum { DEEPEST = 768 };

static uint64_t stack[STACK / 8] __attribute__((aligned(64)));

static uint32_t costs[MOST_CELLS], work[2 * MOST_CELLS], goal, limit, ways;
static uint8_t route[MOST_CELLS], text[FRADNUMBER_LONGEST_TEXT];
static uint8_t question[FRADNUMBER_RECORD_SIZE], answer[FRADNUMBER_RECORD_SIZE], entry[FRADNUMBER_LONGEST_ENTRY];
static size_t route_length, text_length, entry_length;

/* What the last call answered: a kind of the engines, 0 if a claim holds or what was asked was read or written. */
static uint64_t told;

static void search(void)
{
    told = fradnumber_search(side, side, ways, map, cells, 0, goal, limit, costs, cells, work, 2 * cells, route, cells).kind;
}

static void astar(void) { told = fradnumber_astar(side, side, ways, map, cells, 0, goal, costs, cells, work, 2 * cells, route, cells).kind; }

static void check_route(void)
{
    told = fradnumber_number_of(fradnumber_check_route(side, side, ways, map, cells, 0, goal, due[goal], due_route, route_length));
}

static void check_table(void) { told = fradnumber_number_of(fradnumber_check_table(side, side, ways, map, cells, 0, due, cells)); }

static void write_map(void)
{
    struct fradnumber_written written = fradnumber_write_map(side, side, map, cells, text, sizeof text);
    told = written.refusal;
    text_length = (size_t)written.length;
}

static void read_map(void) { told = fradnumber_read_map(text, text_length, route, cells).refusal; }

static void judge_map(void) { told = fradnumber_judge_map(text, text_length, cells).refusal; }

static void write_entry(void)
{
    struct fradnumber_entry_written written = fradnumber_write_entry(question, answer, due_route, route_length, entry, sizeof entry);
    told = written.refusal;
    entry_length = (size_t)written.length;
}

static void read_entry(void) { told = fradnumber_read_entry(entry, entry_length, route, sizeof route).refusal; }

/* All that a call may change is named, so that the compiler keeps nothing there. */
static void on_own_stack(void (*call)(void))
{
    uint64_t *top = stack + STACK / 8;
#if defined(__x86_64__)
    __asm__ volatile("movq %%rsp, %%rbx\n\tmovq %0, %%rsp\n\tcallq *%1\n\tmovq %%rbx, %%rsp"
                     : "+r"(top), "+r"(call)
                     :
                     : "rax", "rbx", "rcx", "rdx", "rsi", "rdi", "r8", "r9", "r10", "r11", "xmm0", "xmm1", "xmm2", "xmm3", "xmm4",
                       "xmm5", "xmm6", "xmm7", "xmm8", "xmm9", "xmm10", "xmm11", "xmm12", "xmm13", "xmm14", "xmm15", "cc", "memory");
#elif defined(__aarch64__)
    __asm__ volatile("mov x19, sp\n\tmov sp, %0\n\tblr %1\n\tmov sp, x19"
                     : "+r"(top), "+r"(call)
                     :
                     : "x0", "x1", "x2", "x3", "x4", "x5", "x6", "x7", "x8", "x9", "x10", "x11", "x12", "x13", "x14", "x15", "x16",
                       "x17", "x18", "x19", "x30", "v0", "v1", "v2", "v3", "v4", "v5", "v6", "v7", "v8", "v9", "v10", "v11", "v12",
                       "v13", "v14", "v15", "v16", "v17", "v18", "v19", "v20", "v21", "v22", "v23", "v24", "v25", "v26", "v27", "v28",
                       "v29", "v30", "v31", "cc", "memory");
#else
#error neither x86-64 nor aarch64
#endif
}

/* Paint differs from word to word, so that what is written is not the paint by chance. */
static uint64_t paint_at(uint64_t word) { return (word + 1) * 0x9e3779b97f4a7c15u; }

static uint32_t depth_of(void (*call)(void))
{
    uint32_t word;
    for (word = 0; word < STACK / 8; word++) stack[word] = paint_at(word);
    on_own_stack(call);
    for (word = 0; word < STACK / 8 && stack[word] == paint_at(word); word++) {}
    return STACK - 8 * word;
}

enum { FOUND, STOPPED, NONE, AIMED, AIMED_NONE, ROUTE, TABLE, WRITE, READ, JUDGE, WRITE_ENTRY, READ_ENTRY, CALLS };

/* Each call, and what it must tell on the question that it is asked here. */
static const struct { const char *name; void (*call)(void); uint64_t tells; } calls[CALLS] = {
    {"search, found", search, FRADNUMBER_FOUND},
    {"search, stopped", search, FRADNUMBER_STOPPED},
    {"search, none", search, FRADNUMBER_NONE},
    {"A*, found", astar, FRADNUMBER_FOUND},
    {"A*, none", astar, FRADNUMBER_NONE},
    {"route check", check_route, 0},
    {"table check", check_table, 0},
    {"map writer", write_map, 0},
    {"map reader", read_map, 0},
    {"map judged", judge_map, 0},
    {"log writer", write_entry, 0},
    {"log reader", read_entry, 0}};

enum { CORRIDORS, STAIRS, LEVEL, HALLS };

/* Of each call in each hall, on a small floor and on the full one. */
static uint32_t depths[2][HALLS][CALLS];

static void measure(int full, int hall, int which)
{
    /* once on the usual stack before: a function of the C library may be bound at its first call, and that is the loader's stack */
    if (!full) calls[which].call();
    depths[full][hall][which] = depth_of(calls[which].call);
    expect_true(calls[which].name, told == calls[which].tells);
}

/* The question for none: the way is cut half-way. */
static void measure_none(int full, int hall)
{
    uint32_t half = way[way_cells / 2];
    map[half] = 0;
    measure(full, hall, NONE);
    measure(full, hall, AIMED_NONE);
    map[half] = HEAVY;
}

static void lay_records(uint32_t length)
{
    struct fradnumber_answer found = {FRADNUMBER_FOUND, 0, 0, 1, 140, 0, 2, 0};
    found.length = length;
    fradnumber_put_question(question, 0, goal, cells, 8);
    fradnumber_put_answer(answer, found);
}

static void measure_hall(int full, int hall)
{
    size_t steps = way_cells > 0 ? way_cells - 1 : side - 1;
    goal = way_cells > 0 ? way[way_cells - 1] : cells - 1;
    ways = hall == CORRIDORS ? 4 : 8;
    limit = cells / 4;
    measure(full, hall, STOPPED);
    limit = cells;
    measure(full, hall, FOUND);
    measure(full, hall, AIMED);
    if (way_cells > 0) measure_none(full, hall);
    route_length = steps;
    measure(full, hall, ROUTE);
    measure(full, hall, TABLE);
    measure(full, hall, WRITE);
    measure(full, hall, READ);
    measure(full, hall, JUDGE);
    /* the log takes no map; its longest entry stands for the full hall */
    route_length = full ? FRADNUMBER_LONGEST_LOGGED : 1;
    lay_records((uint32_t)route_length);
    measure(full, hall, WRITE_ENTRY);
    measure(full, hall, READ_ENTRY);
}

static uint32_t deepest(int full, int which)
{
    uint32_t hall, depth = 0;
    for (hall = 0; hall < HALLS; hall++)
        if (depths[full][hall][which] > depth) depth = depths[full][hall][which];
    return depth;
}

int main(void)
{
    int full, hall, which;
    for (full = 0; full < 2; full++) {
        uint32_t new_side = full ? GREATEST_SIDE : SMALL_SIDE;
        lay_corridors(new_side);
        measure_hall(full, CORRIDORS);
        lay_stairs(new_side);
        measure_hall(full, STAIRS);
        lay_level(new_side);
        measure_hall(full, LEVEL);
    }
    printf("stack, in bytes, on floors of 16 by 16 and on halls of 1,024 by 1,024:\n");
    for (which = 0; which < CALLS; which++) {
        printf("    %-16s %4lu %4lu\n", calls[which].name, (unsigned long)deepest(0, which), (unsigned long)deepest(1, which));
        for (hall = 0; hall < HALLS; hall++) expect_true("a depth that grows", depths[0][hall][which] == depths[1][hall][which]);
        expect_true("a depth that is measured and small", deepest(1, which) > 0 && deepest(1, which) <= DEEPEST);
    }
    return end_of_test("stack");
}
