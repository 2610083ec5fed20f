/*
 * The table check, called from C: right tables, every refusal, and tables that break the rule.
 */
#include "expect.h"

#define MARK FRADNUMBER_MARK

/* Case a of the customer's paper: .@. over ... */
static const uint8_t a[6] = {1, 0, 1, 1, 1, 1};
static const uint32_t right[6] = {0, MARK, 560, 140, 280, 420};

static uint64_t on_a(uint32_t ways, uint32_t start, const uint32_t *costs, size_t length)
{
    return fradnumber_check_table(3, 2, ways, a, 6, start, costs, length);
}

static void refusals(void)
{
    static const uint8_t heavy[2] = {1, 10};
    static uint8_t wide[1025];
    static uint32_t steps[1025];
    uint32_t i;
    for (i = 0; i < 1025; i++) {
        wide[i] = 1;
        steps[i] = 140 * i;
    }
    expect_claim("width 0", fradnumber_check_table(0, 2, 8, a, 6, 0, right, 6), FRADNUMBER_BAD_SIDE, 0);
    expect_claim("height 1025", fradnumber_check_table(1, 1025, 8, wide, 1025, 0, steps, 1025), FRADNUMBER_BAD_SIDE, 0);
    expect_claim("width 1025", fradnumber_check_table(1025, 1, 8, wide, 1025, 0, steps, 1025), FRADNUMBER_BAD_SIDE, 0);
    expect_claim("height 1024", fradnumber_check_table(1, 1024, 8, wide, 1024, 0, steps, 1024), FRADNUMBER_HOLDS, 0);
    expect_claim("width 1024", fradnumber_check_table(1024, 1, 8, wide, 1024, 0, steps, 1024), FRADNUMBER_HOLDS, 0);
    expect_claim("a map too short", fradnumber_check_table(3, 2, 8, a, 5, 0, right, 6), FRADNUMBER_BAD_LENGTH, 0);
    expect_claim("no map", fradnumber_check_table(1, 1, 8, 0, 0, 0, 0, 0), FRADNUMBER_BAD_LENGTH, 0);
    expect_claim("a weight of 10", fradnumber_check_table(2, 1, 8, heavy, 2, 0, right, 6), FRADNUMBER_BAD_WEIGHT, 1);
    expect_claim("five ways", on_a(5, 0, right, 6), FRADNUMBER_BAD_WAYS, 0);
    expect_claim("260 ways", on_a(260, 0, right, 6), FRADNUMBER_BAD_WAYS, 0);
    expect_claim("start off the map", on_a(8, 6, right, 6), FRADNUMBER_START_OFF_MAP, 0);
    expect_claim("start 2^32 - 1", on_a(8, 4294967295u, right, 6), FRADNUMBER_START_OFF_MAP, 0);
    expect_claim("start blocked", on_a(8, 1, right, 6), FRADNUMBER_START_BLOCKED, 0);
    expect_claim("start blocked and costs short", on_a(8, 1, right, 5), FRADNUMBER_START_BLOCKED, 0);
    expect_claim("costs short", on_a(8, 0, right, 5), FRADNUMBER_SHORT_COSTS, 0);
    expect_claim("no costs", on_a(8, 0, 0, 0), FRADNUMBER_SHORT_COSTS, 0);
}

/* A table of case a with one value changed. */
static uint64_t with(uint32_t cell, uint32_t value)
{
    uint32_t costs[6], i;
    for (i = 0; i < 6; i++) costs[i] = i == cell ? value : right[i];
    return on_a(8, 0, costs, 6);
}

static void tables(void)
{
    static const uint8_t row[3] = {1, 0, 1};
    static const uint32_t alone[3] = {0, MARK, MARK}, longer[8] = {0, MARK, 560, 140, 280, 420, 1, 2}, nothing[6] = {MARK, MARK, MARK, MARK, MARK, MARK};
    expect_claim("case a", on_a(8, 0, right, 6), FRADNUMBER_HOLDS, 0);
    expect_claim("four ways too", on_a(4, 0, right, 6), FRADNUMBER_HOLDS, 0);
    expect_claim("costs past the map", on_a(8, 0, longer, 8), FRADNUMBER_HOLDS, 0);
    expect_claim("a claimed none", fradnumber_check_table(3, 1, 8, row, 3, 0, alone, 3), FRADNUMBER_HOLDS, 0);
    expect_claim("420 made 419", with(5, 419), FRADNUMBER_BREAKS_RULE, 2);
    expect_claim("the start not 0", with(0, 1), FRADNUMBER_BREAKS_RULE, 0);
    expect_claim("a blocked cell with a cost", with(1, 140), FRADNUMBER_BREAKS_RULE, 1);
    expect_claim("a reachable cell with MARK", with(2, MARK), FRADNUMBER_BREAKS_RULE, 2);
    expect_claim("MARK everywhere", on_a(8, 0, nothing, 6), FRADNUMBER_BREAKS_RULE, 0);
    expect_claim("the table of another start", on_a(8, 3, right, 6), FRADNUMBER_BREAKS_RULE, 0);
}

int main(void)
{
    refusals();
    tables();
    return end_of_test("table check");
}
