/* The estimate of what is left, from C: jobs in which a pair has no estimate and so is not reached, and jobs in which it orders the search, compared with
 * what card 2 says of them. */
#include "expect.h"

enum { SLOT = DAGZHIMO_SLOT, SLOTS = 200, DEAREST = 65535 };

static uint8_t job[MOST_JOB], table[SLOTS * SLOT], plan[64], large[DAGZHIMO_MOST_TABLE + SLOT + 1];

/* ---- jobs */

/* Writes a job in the new form with one hint, or with none if it has no bytes, and gives its length. */
static size_t write_job(uint8_t facts, uint64_t start, uint64_t goal, const struct step *steps, size_t count, const uint8_t *hint, size_t hint_len) {
    return write_steps(job, NEW_STEP, facts, start, goal, steps, count, hint_len ? AS_HINT : PLAIN, hint, hint_len);
}

/* No hint, a hint that is dead at the start, and one that fact 0 stays true. */
#define NO_HINT NULL, 0
#define DEAD BYTES(0x00)
#define KEEP_FACT_0 BYTES(0x22, 0x03, 0x00)

/* ---- expectations */

/* A search in a table of so many bytes of the room, which is cleared, and nothing after it; the plan buffer then has these steps and else what it had. */
static void expect_in(const char *what, size_t length, uint8_t *room, size_t room_len, size_t table_len, struct numbers wanted, const uint8_t *steps) {
    uint8_t buffer[sizeof plan];
    memset(room, 7, room_len), memset(plan, 9, sizeof plan), memset(buffer, 9, sizeof buffer);
    if (wanted.second) memcpy(buffer, steps, wanted.second);
    expect(what, search(job, length, room, table_len, plan, sizeof plan), wanted.number, wanted.first, wanted.second);
    expect_bytes(what, plan, buffer, sizeof plan);
    expect_all(what, room, table_len, 0);
    expect_all(what, room + table_len, room_len - table_len, 7);
}

/* A plan is found in a table of so many slots; the read-through passes it, and it meets the hint if there is one. */
static void expect_plan(const char *what, size_t length, size_t slots, uint64_t cost, const uint8_t *steps, size_t count) {
    expect_in(what, length, table, sizeof table, slots * SLOT, (struct numbers){0, cost, count}, steps);
    expect(what, read_through(job, length, steps, count), 0, cost, job[3]);
}

/* A refusal from a table of so many slots, one for each pair that is reached, and from one with more. */
static void expect_refused(const char *what, size_t length, size_t slots, uint64_t number) {
    expect_in(what, length, table, sizeof table, slots * SLOT, (struct numbers){number, 0, 0}, NULL);
    expect_in(what, length, table, sizeof table, sizeof table, (struct numbers){number, 0, 0}, NULL);
}

/* No pair is reached, so it is 12 from any table: of 0 bytes, missing, without a whole slot, with one slot, and the largest. */
static void expect_no_pair(const char *what, size_t length) {
    const size_t sizes[] = {0, 1, SLOT - 1, SLOT, sizeof table};
    for (size_t i = 0; i < sizeof sizes / sizeof *sizes; i++) expect_in(what, length, table, sizeof table, sizes[i], (struct numbers){12, 0, 0}, NULL);
    expect_in(what, length, large, sizeof large, sizeof large, (struct numbers){12, 0, 0}, NULL);
    memset(plan, 9, sizeof plan);
    expect(what, search(job, length, NULL, 0, plan, sizeof plan), 12, 0, 0);
    expect_all(what, plan, sizeof plan, 9);
    expect(what, search(job, length, NULL, 0, NULL, 0), 12, 0, 0);
}

/* ---- a start without an estimate */

static void start(void) {
    expect_no_pair("no steps, a goal", write_job(1, 0, 1, NULL, 0, NO_HINT));
    expect_no_pair("nothing adds the goal", write_job(2, 0, 2, STEPS({.added = 1, .cost = 1}), NO_HINT));
    expect_no_pair("nothing adds the goal, and a hint is dead", write_job(2, 0, 2, STEPS({.added = 1, .cost = 1}), DEAD));
    expect_no_pair("one goal fact of two is true", write_job(2, 1, 3, STEPS({.added = 1, .cost = 1}), NO_HINT));
    /* fact 2 needs fact 1, which needs fact 3, which nothing adds */
    expect_no_pair("what the goal needs needs what nothing adds",
                   write_job(4, 0, 4, STEPS({.added = 1}, {.needed = 3, .added = 4}, {.needed = 8, .added = 2}), DEAD));
    expect_no_pair("the last of 64 facts", write_job(64, ~(1ull << 63), 1ull << 63, STEPS({.needed = 1, .added = 2}, {.deleted = 1ull << 63}), DEAD));
}

/* A fact costs 0 where it is true, whether a step adds it or not; without goal a state costs 0. So the start pair is reached, and a dead hint cuts it. */
static void no_goal(void) {
    expect_plan("no goal", write_job(2, 0, 0, STEPS({.needed = 2, .added = 1, .cost = DEAREST}), NO_HINT), 1, 0, NULL, 0);
    expect_refused("no goal, a dead hint", write_job(2, 0, 0, STEPS({.needed = 2, .added = 1}), DEAD), 1, 11);
    expect_plan("a goal that is true", write_job(2, 2, 2, STEPS({.added = 1, .cost = DEAREST}), NO_HINT), 1, 0, NULL, 0);
    expect_refused("a goal that is true, a dead hint", write_job(2, 2, 2, NULL, 0, DEAD), 1, 11);
}

/* ---- pairs without an estimate */

/* Fact 0, the clamp, is shut, and it is to be shut at the end with fact 1, scanned. Pass scans and opens the clamp; a second step shuts it. */
static void lost(void) {
    const struct step steps[] = {{.added = 2, .deleted = 1, .cost = 3}, {.added = 1, .cost = 2}};
    expect_refused("nothing shuts the clamp", write_job(2, 1, 3, steps, 1, NO_HINT), 1, 12);
    expect_refused("nothing shuts the clamp, a hint cuts where it is open", write_job(2, 1, 3, steps, 1, KEEP_FACT_0), 1, 12);
    expect_refused("nothing shuts the clamp, a hint cuts the start", write_job(2, 1, 3, steps, 1, DEAD), 1, 11);
    /* three pairs: shut; scanned; both */
    expect_plan("a step shuts the clamp", write_job(2, 1, 3, steps, 2, NO_HINT), 3, 5, BYTES(0, 1));
    expect_refused("a step shuts the clamp, a hint cuts where it is open", write_job(2, 1, 3, steps, 2, KEEP_FACT_0), 3, 11);
}

/* Fact 0 is true, is wanted, and is lost with a step that costs nothing. Facts 1 to 3 are built one after the other. Four pairs have fact 0; those
 * without it have no estimate, and take no slot. */
static void few_slots(void) {
    const struct step steps[] = {{.deleted = 1}, {.added = 2, .cost = 5}, {.needed = 2, .added = 4, .cost = 5}, {.needed = 4, .added = 8, .cost = 5}};
    expect_plan("four slots", write_job(4, 1, 9, steps, 4, NO_HINT), 4, 15, BYTES(1, 2, 3));
    expect_plan("four slots, a hint cuts nothing but pairs without an estimate", write_job(4, 1, 9, steps, 4, KEEP_FACT_0), 4, 15, BYTES(1, 2, 3));
}

/* Facts 0 and 1 are built from each other, for nothing: any number would do for both, and the largest holds, which is none. */
static void cycles(void) {
    const struct step steps[] = {{.needed = 1, .added = 2}, {.needed = 2, .added = 1}, {.needed = 4, .added = 1, .cost = 5}};
    expect_no_pair("a free cycle of two", write_job(2, 0, 1, steps, 2, DEAD));
    expect_no_pair("a free cycle of two, both wanted", write_job(2, 0, 3, steps, 2, NO_HINT));
    expect_no_pair("a free cycle of one", write_job(1, 0, 1, STEPS({.needed = 1, .added = 1}), DEAD));
    expect_no_pair("a free cycle of three", write_job(3, 0, 4, STEPS({.needed = 1, .added = 2}, {.needed = 2, .added = 4}, {.needed = 4, .added = 1}), DEAD));
    expect_no_pair("a cycle that costs 1", write_job(2, 0, 1, STEPS({.needed = 1, .added = 2}, {.needed = 2, .added = 1, .cost = 1}), DEAD));
    /* with fact 2 one of them is built from outside */
    expect_no_pair("a free cycle and a step that needs what nothing adds", write_job(3, 0, 2, steps, 3, DEAD));
    expect_plan("a free cycle and a step into it", write_job(3, 4, 2, steps, 3, NO_HINT), 3, 5, BYTES(2, 0));
}

/* Fact 0 is true, and the only step that adds fact 1, the goal, forbids it. The estimate overlooks that, so the start pair is reached, and so is the one
 * after step 1, which adds fact 2. */
static void overlooked(void) {
    const struct step steps[] = {{.added = 2, .forbidden = 1, .cost = 1}, {.added = 4, .cost = 1}, {.deleted = 1, .cost = 1}};
    expect_refused("a forbidden fact stays", write_job(3, 1, 2, steps, 2, NO_HINT), 2, 12);
    expect_refused("a forbidden fact stays, a hint cuts the start", write_job(3, 1, 2, steps, 2, DEAD), 1, 11);
    expect_refused("a forbidden fact stays, a hint cuts the other pair", write_job(3, 1, 2, steps, 2, BYTES(0x22, 0x10, 0x04, 0x01)), 2, 11);
    expect_plan("a forbidden fact goes", write_job(3, 1, 2, steps, 3, NO_HINT), 6, 2, BYTES(2, 0));
    expect_refused("needed and forbidden, a hint cuts the start", write_job(2, 1, 2, STEPS({.needed = 1, .added = 2, .forbidden = 1}), DEAD), 1, 11);
    expect_refused("deleted and added, a hint cuts the start", write_job(1, 0, 1, STEPS({.added = 1, .deleted = 1}), DEAD), 1, 11);
}

/* ---- the order of the search */

/* 64 facts, each built from the one before by a step that costs 65,535; the steps stand in this order or in the other. 65 pairs. */
static void longest_chain(int backwards) {
    const char *what = backwards ? "64 dear steps, the last first" : "64 dear steps";
    struct step steps[64];
    uint8_t numbers[64];
    for (unsigned i = 0; i < 64; i++) {
        numbers[i] = (uint8_t)(backwards ? 63 - i : i);
        steps[numbers[i]] = (struct step){.needed = i ? 1ull << (i - 1) : 0, .added = 1ull << i, .cost = DEAREST};
    }
    expect_plan(what, write_job(64, 0, 1ull << 63, steps, 64, NO_HINT), 65, 4194240, numbers, 64);
    expect_plan(what, write_job(64, 0, ~0ull, steps, 64, NO_HINT), 65, 4194240, numbers, 64);
}

/* 16 facts built one from the other for 100 each, and 10 useless ones that anyone may add for 1 each: 17,408 pairs. Cost plus estimate is 1,600 on the
 * way to the goal and one more for each useless fact, so only pairs on the way are taken: the 16 before the goal. Each brings the next one and 10 beside
 * it, with the start 177 pairs. Document 01 lets a search answer 10 here, since more pairs are reached; only the order of the work says that it does not. */
static void useless_steps(void) {
    enum { CHAIN = 16, USELESS = 10 };
    struct step steps[CHAIN + USELESS];
    uint8_t numbers[CHAIN];
    for (unsigned i = 0; i < CHAIN; i++) {
        numbers[i] = (uint8_t)(USELESS + i);
        steps[USELESS + i] = (struct step){.needed = i ? 1ull << (i - 1) : 0, .added = 1ull << i, .cost = 100};
    }
    for (unsigned i = 0; i < USELESS; i++) steps[i] = (struct step){.added = 1ull << (CHAIN + i), .cost = 1};
    size_t length = write_job(CHAIN + USELESS, 0, 1ull << (CHAIN - 1), steps, CHAIN + USELESS, NO_HINT);
    expect_plan("a chain beside useless steps", length, 1 + CHAIN * (1 + USELESS), 1600, numbers, CHAIN);
}

/* The cheapest plan is found beside one that costs one more, which is a single step. An estimate that counted every needed or wanted fact, and not the
 * dearest alone, would count step 1 twice after step 0, and come to the dearer plan. */
static void cheapest(void) {
    const struct step steps[] = {{.added = 1, .cost = 1}, {.needed = 1, .added = 6, .cost = 2}, {.needed = 6, .added = 8}, {.added = 14, .cost = 4}};
    expect_plan("a fact that needs two facts of one step", write_job(4, 0, 8, steps, 4, NO_HINT), SLOTS, 3, BYTES(0, 1, 2));
    expect_plan("two goal facts of one step", write_job(4, 0, 6, steps, 4, NO_HINT), SLOTS, 3, BYTES(0, 1));
    /* the pair after step 3 is nearest to the goal, and is not taken first */
    expect_plan("the same, nothing counted twice", write_job(4, 0, 2, steps, 4, NO_HINT), SLOTS, 3, BYTES(0, 1));
}

int main(void) {
    start();
    no_goal();
    lost();
    few_slots();
    cycles();
    overlooked();
    cheapest();
    longest_chain(0), longest_chain(1);
    useless_steps();
    return finish("estimate");
}
