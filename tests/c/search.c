/* Calls the search from C on document 01's cases, in both forms of a step, and looks at numbers, plan buffer and table. */
#include "expect.h"

enum { SLOT = DAGZHIMO_SLOT };

static uint8_t job[P_ROOM], table[65536], plan[8], large[DAGZHIMO_MOST_TABLE + 2 * SLOT + 1];

/* A search with all of the plan buffer; after it the table is cleared, and the buffer has these steps and else what it had. */
static void expect_plan(const char *what, size_t length, uint64_t number, uint64_t cost, const uint8_t *steps, size_t count) {
    uint8_t wanted[sizeof plan];
    memset(table, 7, sizeof table), memset(plan, 9, sizeof plan), memset(wanted, 9, sizeof wanted);
    if (count) memcpy(wanted, steps, count);
    expect(what, search(job, length, table, sizeof table, plan, sizeof plan), number, cost, count);
    expect_bytes(what, plan, wanted, sizeof plan);
    expect_all(what, table, sizeof table, 0);
}

static void expect_refused(const char *what, size_t length, uint64_t number) { expect_plan(what, length, number, 0, NULL, 0); }

/* P in a table without a place: its pairs outnumber the places, so 10 is right, which leaves the plan buffer alone, and so is the answer. */
static void expect_10_or_plan(const char *what, size_t length, uint8_t *lent, size_t lent_len) {
    memset(plan, 9, sizeof plan);
    struct numbers got = search(job, length, lent, lent_len, plan, sizeof plan);
    if (got.number == 10) {
        expect(what, got, 10, 0, 0);
        expect_all(what, plan, sizeof plan, 9);
    } else {
        expect(what, got, 0, 16, 3);
        expect_bytes(what, plan, BYTES(0, 1, 2, 9, 9, 9, 9, 9));
    }
}

/* Cases of P, which is written in the old form or in the new one. */
static void cases(size_t (*p)(uint8_t *job, uint8_t goal, enum as as, const uint8_t *formula, size_t length)) {
    expect_plan("P", p(job, GOAL_SCANNED, PLAIN, NULL, 0), 0, 16, BYTES(0, 1, 2));
    expect_plan("lamp before sand", p(job, GOAL_SCANNED, AS_RULE, BYTES(0x23, 0x10, 0x04, 0x00, 0x04, 0x01)), 0, 16, BYTES(1, 0, 2));
    expect_refused("rule last", p(job, GOAL_SCANNED, AS_RULE, BYTES(0x02)), 12);
    expect_plan("rule eventually last", p(job, GOAL_SCANNED, AS_RULE, BYTES(0x21, 0x02)), 0, 16, BYTES(0, 1, 2));
    expect_refused("rule false", p(job, GOAL_SCANNED, AS_RULE, BYTES(0x00)), 12);
    expect_plan("no goal", p(job, GOAL_NONE, PLAIN, NULL, 0), 0, 0, NULL, 0);
    expect_plan("no goal, next last", p(job, GOAL_NONE, AS_RULE, BYTES(0x20, 0x02)), 0, 0, NULL, 0);
    expect_plan("no goal, next next true", p(job, GOAL_NONE, AS_RULE, BYTES(0x20, 0x20, 0x01)), 0, 2, BYTES(1));
    expect_refused("hint never lamp", p(job, GOAL_SCANNED, AS_HINT, BYTES(0x22, 0x10, 0x04, 0x01)), 11);
    expect_plan("hint eventually sand", p(job, GOAL_SCANNED, AS_HINT, BYTES(0x21, 0x04, 0x00)), 0, 16, BYTES(0, 1, 2));
    /* six moments after the first must come, so there are five steps, and the cheapest more ones are lamps */
    expect_plan("six times next", p(job, GOAL_SCANNED, AS_RULE, BYTES(0x20, 0x20, 0x20, 0x20, 0x20, 0x20, 0x03, 0x00)), 0, 20,
                BYTES(0, 1, 1, 1, 2));
}

/* Two facts, two steps of cost 0 that add and delete fact 0, goal fact 1. */
static void undone(void) {
    memset(job, 0, sizeof job);
    memcpy(job, BYTES(2, 2, 0, 0, 8, 0, 68, 0));
    job[8 + 8] = 2;
    job[8 + 16 + 8] = 1;
    job[8 + 42] = 1, job[8 + 42 + 16] = 1;
    expect_refused("steps that undo each other", 76, 12);
}

static void buffers(void) {
    size_t n = job_p(job, GOAL_SCANNED, PLAIN, NULL, 0);
    memset(plan, 9, sizeof plan);
    expect("buffer of 2", search(job, n, table, sizeof table, plan, 2), 13, 3, 0);
    expect_all("buffer of 2", plan, sizeof plan, 9);
    expect("buffer of 3", search(job, n, table, sizeof table, plan, 3), 0, 16, 3);
    expect_bytes("buffer of 3", plan, BYTES(0, 1, 2, 9, 9, 9, 9, 9));
    expect("no buffer at all", search(job, n, table, sizeof table, NULL, 0), 13, 3, 0);
    n = job_p(job, GOAL_NONE, PLAIN, NULL, 0);
    expect("no buffer at all, empty plan", search(job, n, table, sizeof table, NULL, 0), 0, 0, 0);
}

static void tables(void) {
    size_t n = job_p(job, GOAL_SCANNED, PLAIN, NULL, 0);
    memset(table, 7, sizeof table);
    expect_10_or_plan("no slot", n, table, SLOT - 1);
    expect_all("no slot, table", table, SLOT - 1, 0);
    expect_all("no slot, bytes after the table", table + SLOT - 1, sizeof table - (SLOT - 1), 7);
    expect_10_or_plan("no table at all", n, NULL, 0);
    /* no pair is reached: the rule is dead at the start */
    n = job_p(job, GOAL_SCANNED, AS_RULE, BYTES(0x00));
    expect("no table at all, no pair", search(job, n, NULL, 0, plan, sizeof plan), 12, 0, 0);

    /* five pairs: nothing, sanded, lamp, both, scanned */
    n = job_p(job, GOAL_SCANNED, PLAIN, NULL, 0);
    memset(table, 7, sizeof table);
    expect("five slots", search(job, n, table + 1, 5 * SLOT, plan, sizeof plan), 0, 16, 3);
    expect_all("five slots, byte before the table", table, 1, 7);
    expect_all("five slots, table", table + 1, 5 * SLOT, 0);
    expect_all("five slots, bytes after the table", table + 1 + 5 * SLOT, sizeof table - 1 - 5 * SLOT, 7);

    memset(large, 7, sizeof large);
    expect("more than 65,536 slots", search(job, n, large, sizeof large, plan, sizeof plan), 0, 16, 3);
    expect_all("more than 65,536 slots, table", large, sizeof large, 0);
}

/* Refusals 1 to 5 leave table and buffer alone. */
static void expect_untouched(const char *what, size_t length, uint64_t number, uint64_t place) {
    memset(table, 7, sizeof table), memset(plan, 9, sizeof plan);
    expect(what, search(job, length, table, sizeof table, plan, sizeof plan), number, place, 0);
    expect_all(what, table, sizeof table, 7);
    expect_all(what, plan, sizeof plan, 9);
}

static void refusals(void) {
    size_t n = job_p(job, GOAL_SCANNED, PLAIN, NULL, 0);
    expect_untouched("empty job", 0, 1, 0);
    expect_untouched("cut off", n - 1, 2, 0);
    expect_untouched("a byte more", n + 1, 2, 0);
    job[8] = 8;
    expect_untouched("fact 3 of 3", n, 3, 8);
    n = job_p(job, GOAL_SCANNED, AS_RULE, BYTES(0x21, 0x04, 0x03));
    expect_untouched("step 3 of 3", n, 4, 108);
    n = job_p(job, GOAL_SCANNED, AS_RULE, BYTES(0x20, 0x20, 0x20, 0x20, 0x20, 0x20, 0x20, 0x03, 0x00));
    expect_untouched("seven times next", n, 5, 113);
    expect("no job at all", search(NULL, 0, table, sizeof table, plan, sizeof plan), 1, 0, 0);
    expect("nothing at all", search(NULL, 0, NULL, 0, NULL, 0), 1, 0, 0);
}

int main(void) {
    cases(job_p);
    int before = failures;
    cases(job_p_new);
    if (failures > before) printf("the last %d of these in the new form\n", failures - before);
    undone();
    buffers();
    tables();
    refusals();
    return finish("search");
}
