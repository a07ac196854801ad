/* Steps that need facts absent, from C: plans and step lists of jobs whose steps forbid facts, compared with what card 1 says of them. */
#include "expect.h"

static uint8_t job[MOST_JOB], table[25 * DAGZHIMO_SLOT], plan[8];

static struct numbers search_job(size_t length) {
    memset(table, 7, sizeof table), memset(plan, 9, sizeof plan);
    return search(job, length, table, sizeof table, plan, sizeof plan);
}

/* The search finds this plan and clears the table, and the read-through passes the plan. */
static void expect_plan(const char *what, size_t length, uint64_t cost, const uint8_t *steps, size_t count) {
    uint8_t wanted[sizeof plan];
    memset(wanted, 9, sizeof wanted);
    memcpy(wanted, steps, count);
    expect(what, search_job(length), 0, cost, count);
    expect_bytes(what, plan, wanted, sizeof plan);
    expect_all(what, table, sizeof table, 0);
    expect(what, read_through(job, length, steps, count), 0, cost, 0);
}

/* No plan is allowed; the read-through stops at this position of sand, lamp, pass. */
static void expect_none(const char *what, size_t length, uint64_t position) {
    expect(what, search_job(length), 12, 0, 0);
    expect_all(what, plan, sizeof plan, 9);
    expect_all(what, table, sizeof table, 0);
    expect(what, read_through(job, length, BYTES(0, 1, 2)), 7, position, 0);
}

/* ---- job P */

enum { SANDED = 1, LAMP = 2, SCANNED = 4 };

/* P in the new form, whose steps forbid these facts. */
static size_t p(uint8_t sand, uint8_t lamp, uint8_t pass) {
    return write_p(job, NEW_STEP, (struct forbidden){sand, lamp, pass}, GOAL_SCANNED, PLAIN, NULL, 0);
}

static void plans(void) {
    expect_plan("nothing forbidden", p(0, 0, 0), 16, BYTES(0, 1, 2));
    expect_plan("no sand after lamp", p(LAMP, 0, 0), 16, BYTES(0, 1, 2));
    expect_plan("no lamp after sand", p(0, SANDED, 0), 16, BYTES(1, 0, 2));
    expect_none("no sand after lamp and no lamp after sand", p(LAMP, SANDED, 0), 1);
    expect_none("pass needs and forbids sanded", p(0, 0, SANDED), 2);
    expect_none("pass needs and forbids both", p(0, 0, SANDED | LAMP), 2);
    expect_plan("each forbids what it adds", p(SANDED, LAMP, SCANNED), 16, BYTES(0, 1, 2));
    expect_plan("no sand and no lamp after pass", p(SCANNED, SCANNED, 0), 16, BYTES(0, 1, 2));
}

/* No sand after lamp, and a rule or hint that wants no sand before it. */
static void formulas(void) {
    const struct forbidden after_lamp = {.sand = LAMP};
    size_t n = write_p(job, NEW_STEP, after_lamp, GOAL_SCANNED, AS_RULE, BYTES(0x23, 0x10, 0x04, 0x00, 0x04, 0x01));
    expect("rule", search_job(n), 12, 0, 0);
    expect("rule, sand before lamp", read_through(job, n, BYTES(0, 1, 2)), 9, 0, 0);
    expect("rule, sand after lamp", read_through(job, n, BYTES(1, 0, 2)), 7, 1, 0);
    n = write_p(job, NEW_STEP, after_lamp, GOAL_SCANNED, AS_HINT, BYTES(0x24, 0x04, 0x01, 0x10, 0x04, 0x00));
    expect("hint", search_job(n), 11, 0, 0);
    expect("hint, sand before lamp", read_through(job, n, BYTES(0, 1, 2)), 0, 16, 0);
    expect("hint, sand after lamp", read_through(job, n, BYTES(1, 0, 2)), 7, 1, 0);
}

static void positions(void) {
    size_t n = p(0, SANDED, 0);
    expect("lamp after sand", read_through(job, n, BYTES(0, 1, 2)), 7, 1, 0);
    expect("lamp after lamp and sand", read_through(job, n, BYTES(1, 1, 0, 0, 1, 2)), 7, 4, 0);
    expect("goal missing", read_through(job, n, BYTES(1, 1, 0)), 8, 0, 0);
    expect("no such step before a forbidden one", read_through(job, n, BYTES(0, 3, 1)), 6, 1, 0);
    expect("no such step after a forbidden one", read_through(job, n, BYTES(0, 1, 3)), 7, 1, 0);
    n = p(0, 0, SCANNED);
    expect("pass twice", read_through(job, n, BYTES(0, 1, 2, 2)), 7, 3, 0);
    n = p(0, 0, SCANNED | SANDED);
    expect("pass without lamp, and sanded is forbidden", read_through(job, n, BYTES(0, 2)), 7, 1, 0);
}

/* ---- other jobs */

static void put_step(unsigned number, uint64_t needed, uint64_t added, uint64_t deleted, uint64_t forbidden, uint64_t cost) {
    uint8_t *at = job + 8 + TASK + NEW_STEP * number;
    put(at, needed, 8), put(at + 8, added, 8), put(at + 16, deleted, 8), put(at + 24, forbidden, 8), put(at + 32, cost, 2);
}

/* The clamp arm swings only when the lens is not lowered. The lens is lowered (fact 0), and both are wanted: raise, swing, lower. */
static void clamp(void) {
    size_t n = empty_job(job, 2, 3, TASK + 3 * NEW_STEP);
    put(job + 8, 1, 8), put(job + 16, 3, 8);
    put_step(0, 0, 2, 0, 1, 3); /* swing */
    put_step(1, 0, 1, 0, 0, 2); /* lower */
    put_step(2, 1, 0, 1, 0, 1); /* raise */
    expect_plan("clamp and lens", n, 6, BYTES(2, 0, 1));
    expect("swing while the lens is lowered", read_through(job, n, BYTES(0)), 7, 0, 0);
}

/* The last fact of 64 is true at the start. Step 62 adds fact 0, the goal, and forbids it; step 63 deletes it; the other steps do nothing. */
static void last_fact(void) {
    size_t n = empty_job(job, 64, 64, TASK + 64 * NEW_STEP);
    put(job + 8, 1ull << 63, 8), put(job + 16, 1, 8);
    put_step(62, 0, 1, 0, 1ull << 63, 1);
    put_step(63, 0, 0, 1ull << 63, 0, 2);
    expect_plan("fact 63 forbidden", n, 3, BYTES(63, 62));
    expect("fact 63 forbidden and true", read_through(job, n, BYTES(0, 62)), 7, 1, 0);
    put_step(62, 0, 1, 0, ~(1ull << 63), 1);
    expect_plan("all facts but 63 forbidden", n, 1, BYTES(62));
}

int main(void) {
    plans();
    formulas();
    positions();
    clamp();
    last_fact();
    return finish("forbidden facts");
}
