/* Card 4 from C: searches by callers who may not use every step. A barred step is never made, is not counted in the estimate, and changes no byte that the
 * caller gets back; and more rights never make a plan dearer. */
#include "expect.h"

enum { SLOT = DAGZHIMO_SLOT, SLOTS = 20, WANTED = 1 };

static uint8_t job[MOST_JOB], table[SLOTS * SLOT], plan[8], large[DAGZHIMO_MOST_TABLE + SLOT + 1];

/* A caller with these rights and this list. */
#define CALLER(held, ...) ((struct caller){BYTES(__VA_ARGS__), held})
#define NO_FORMULA PLAIN, NULL, 0
#define RULE(...) AS_RULE, BYTES(__VA_ARGS__)
#define HINT(...) AS_HINT, BYTES(__VA_ARGS__)

/* ---- expectations */

/* A search in a table of so many bytes of the room, which is cleared, and nothing after it; the plan buffer then has these steps and else what it had. */
static void expect_in(const char *what, struct caller by, size_t length, uint8_t *room, size_t room_len, size_t table_len, struct numbers wanted,
                      const uint8_t *steps) {
    uint8_t buffer[sizeof plan];
    memset(room, 7, room_len), memset(plan, 9, sizeof plan), memset(buffer, 9, sizeof buffer);
    if (wanted.second) memcpy(buffer, steps, wanted.second);
    expect(what, search_by(by, job, length, room, table_len, plan, sizeof plan), wanted.number, wanted.first, wanted.second);
    expect_bytes(what, plan, buffer, sizeof plan);
    expect_all(what, room, table_len, 0);
    expect_all(what, room + table_len, room_len - table_len, 7);
}

/* A plan from a table of so many slots, one for each pair that is reached, and from one with more. The read-through passes it, with these hint bits. */
static void expect_plan(const char *what, struct caller by, size_t length, size_t slots, uint64_t cost, const uint8_t *steps, size_t count, uint64_t bits) {
    expect_in(what, by, length, table, sizeof table, slots * SLOT, (struct numbers){0, cost, count}, steps);
    expect_in(what, by, length, table, sizeof table, sizeof table, (struct numbers){0, cost, count}, steps);
    expect(what, read_through_by(by, job, length, steps, count), 0, cost, bits);
}

/* A refusal from a table of so many slots, and from one with more. */
static void expect_refused(const char *what, struct caller by, size_t length, size_t slots, uint64_t number) {
    expect_in(what, by, length, table, sizeof table, slots * SLOT, (struct numbers){number, 0, 0}, NULL);
    expect_in(what, by, length, table, sizeof table, sizeof table, (struct numbers){number, 0, 0}, NULL);
}

/* No pair is reached, so it is 12 from any table: missing, without a whole slot, with one slot, and the largest. */
static void expect_no_pair(const char *what, struct caller by, size_t length) {
    const size_t sizes[] = {0, 1, SLOT - 1, SLOT, sizeof table};
    for (size_t i = 0; i < sizeof sizes / sizeof *sizes; i++)
        expect_in(what, by, length, table, sizeof table, sizes[i], (struct numbers){12, 0, 0}, NULL);
    expect_in(what, by, length, large, sizeof large, sizeof large, (struct numbers){12, 0, 0}, NULL);
    expect(what, search_by(by, job, length, NULL, 0, NULL, 0), 12, 0, 0);
}

/* ---- the estimate counts only steps that may be used */

/* P without the right to sand: nothing builds the goal, so the start has no estimate, and a hint that is dead there cuts no pair. */
static void unreached(void) {
    const struct caller student = CALLER(0x04, 0x02, 0x00, 0x04), all = CALLER(0x06, 0x02, 0x00, 0x04);
    size_t n = job_p(job, GOAL_SCANNED, NO_FORMULA);
    expect_plan("P with all rights", all, n, 5, 16, BYTES(0, 1, 2), 0);
    expect_no_pair("P without sand", student, n);
    n = job_p(job, GOAL_SCANNED, HINT(0x00));
    expect_refused("P and a dead hint with all rights", all, n, 1, 11);
    expect_no_pair("P without sand and a dead hint", student, n);
    /* without goal a state costs 0, whoever asks; so does one where the goal is true */
    expect_refused("no goal, a dead hint, no rights", CALLER(0, 1, 1, 1), job_p(job, GOAL_NONE, HINT(0x00)), 1, 11);
    n = write_steps(job, OLD_STEP, 1, WANTED, WANTED, STEPS({.added = WANTED, .cost = 1}), NO_FORMULA);
    expect_plan("a goal that is true, every step barred", CALLER(0, 1), n, 1, 0, NULL, 0, 0);
}

/* Fact 0, the clamp, is shut, and it is to be shut at the end with fact 1, scanned. Pass scans and opens the clamp; a second step shuts it. Who may not
 * shut it reaches the start alone. */
static void lost(void) {
    const struct step steps[] = {{.added = 2, .deleted = 1, .cost = 3}, {.added = 1, .cost = 2}};
    const struct caller may = CALLER(0x80, 0x00, 0x80), may_not = CALLER(0x7f, 0x00, 0x80);
    size_t n = write_steps(job, OLD_STEP, 2, 1, 3, steps, 2, NO_FORMULA);
    expect_plan("who may shut the clamp", may, n, 3, 5, BYTES(0, 1), 0);
    expect_refused("who may not shut the clamp", may_not, n, 1, 12);
    n = write_steps(job, OLD_STEP, 2, 1, 3, steps, 2, HINT(0x22, 0x03, 0x00));
    expect_refused("who may shut the clamp, a hint that it stays shut", may, n, 3, 11);
    expect_refused("who may not shut the clamp, a hint that it stays shut", may_not, n, 1, 12);
}

/* Three facts that usable steps add, and five that barred steps would add, all for 1 each. 8 pairs are reached, and with all rights 256. */
static void few_slots(void) {
    struct step steps[8];
    uint8_t needs[8];
    for (int i = 0; i < 8; i++) steps[i] = (struct step){.added = 1ull << i, .cost = 1}, needs[i] = i % 3 == 1 ? 0 : 1;
    const struct caller by = {needs, 8, 0};
    expect_plan("eight slots", by, write_steps(job, NEW_STEP, 8, 0, 1 << 1 | 1 << 4 | 1 << 7, steps, 8, NO_FORMULA), 8, 3, BYTES(1, 4, 7), 0);
    /* fact 4 is the goal, the rule wants fact 1, and the step to each forbids the other: six pairs have at most one of them */
    steps[4].forbidden = 1 << 1, steps[1].forbidden = 1 << 4;
    size_t n = write_steps(job, NEW_STEP, 8, 0, 1 << 4, steps, 8, RULE(0x21, 0x03, 0x01));
    expect_refused("six slots, no plan", by, n, 6, 12);
}

/* ---- the plan */

/* Two ways to the goal: step 0 for 1, and step 1 for 5. */
static size_t two_ways(enum as as, const uint8_t *formula, size_t length) {
    return write_steps(job, OLD_STEP, 1, 0, WANTED, STEPS({.added = WANTED, .cost = 1}, {.added = WANTED, .cost = 5}), as, formula, length);
}

/* Rules and hints that name a barred step: it is never made. With the right it is. */
static void formulas(void) {
    const struct caller may = CALLER(3, 3, 0), may_not = CALLER(2, 3, 0);
    expect_plan("with the right", may, two_ways(NO_FORMULA), 2, 1, BYTES(0), 0);
    expect_plan("without the right", may_not, two_ways(NO_FORMULA), 2, 5, BYTES(1), 0);
    expect_plan("rule always not step 0", may_not, two_ways(RULE(0x22, 0x10, 0x04, 0x00)), 2, 5, BYTES(1), 0);
    expect_plan("rule not step 0 until step 1", may_not, two_ways(RULE(0x23, 0x10, 0x04, 0x00, 0x04, 0x01)), 2, 5, BYTES(1), 0);
    expect_refused("rule eventually step 0", may_not, two_ways(RULE(0x21, 0x04, 0x00)), 2, 12);
    expect_plan("rule eventually step 0, with the right", may, two_ways(RULE(0x21, 0x04, 0x00)), 3, 1, BYTES(0), 0);
    expect_plan("rule eventually step 0 or step 1", may_not, two_ways(RULE(0x21, 0x12, 0x04, 0x00, 0x04, 0x01)), 2, 5, BYTES(1), 0);
    expect_refused("rule next step 0", may_not, two_ways(RULE(0x20, 0x04, 0x00)), 1, 12);
    /* a hint that waits for step 0 dies nowhere, and is not met */
    expect_plan("hint eventually step 0", may_not, two_ways(HINT(0x21, 0x04, 0x00)), 2, 5, BYTES(1), 0);
    expect_plan("hint eventually step 0, with the right", may, two_ways(HINT(0x21, 0x04, 0x00)), 2, 1, BYTES(0), 1);
    expect_plan("hint always not step 0", may_not, two_ways(HINT(0x22, 0x10, 0x04, 0x00)), 2, 5, BYTES(1), 1);
    expect_refused("hint next step 0", may_not, two_ways(HINT(0x20, 0x04, 0x00)), 2, 11);
    expect_plan("hint next step 0, with the right", may, two_ways(HINT(0x20, 0x04, 0x00)), 2, 1, BYTES(0), 1);
}

/* ---- rights that grow */

/* Ways to the goal that need no right (9), right 0 (7), right 1 (5), both (3), and right 2 and then right 3 (1 + 1); each of the 16 callers has the
 * cheapest of those for which all rights are held, and none with fewer rights has a cheaper one. */
static void growing(void) {
    const struct step steps[] = {{.added = 1, .cost = 9}, {.added = 1, .cost = 7}, {.added = 1, .cost = 5},
                                 {.added = 1, .cost = 3}, {.added = 2, .cost = 1}, {.needed = 2, .added = 1, .cost = 1}};
    const uint8_t needs[] = {0, 1, 2, 3, 4, 8}, wanted[16] = {9, 7, 5, 3, 9, 7, 5, 3, 9, 7, 5, 3, 2, 2, 2, 2};
    size_t n = write_steps(job, NEW_STEP, 2, 0, 1, steps, 6, NO_FORMULA);
    uint64_t costs[16];
    for (uint8_t held = 0; held < 16; held++) {
        struct numbers got = search_by((struct caller){needs, 6, held}, job, n, table, sizeof table, plan, sizeof plan);
        expect("growing rights", got, 0, wanted[held], held < 12 ? 1 : 2);
        costs[held] = got.first;
        for (uint8_t fewer = 0; fewer < held; fewer++)
            if ((fewer & held) == fewer && costs[held] > costs[fewer])
                printf("growing rights: %d has a dearer plan than %d\n", held, fewer), failures++;
    }
}

/* ---- two jobs that differ in barred steps alone */

/* What a search in so many slots and with a plan buffer of so many bytes gives back. */
struct end {
    struct numbers numbers;
    uint8_t table[8 * SLOT], plan[8];
};

static struct end ended(struct caller by, size_t length, size_t slots, size_t room) {
    struct end end;
    memset(end.table, 7, sizeof end.table), memset(end.plan, 9, sizeof end.plan);
    end.numbers = search_by(by, job, length, end.table, slots * SLOT, end.plan, room);
    return end;
}

/* Facts 0 to 2 are built one from the other by steps 1, 2 and 4; steps 0, 3 and 5 are barred, and are what is given. Fact 3 is true, and fact 2 is wanted
 * with it; step 6 loses it for nothing, and leads to no pair unless a barred step that adds it counts in the estimate. */
static size_t with_barred(size_t step_len, struct step barred, enum as as, const uint8_t *formula, size_t length) {
    const struct step first = {.added = 1, .cost = 2}, second = {.needed = 1, .added = 2, .cost = 3}, third = {.needed = 2, .added = 4, .cost = 4};
    const struct step steps[] = {barred, first, second, barred, third, barred, {.deleted = 8}};
    return write_steps(job, step_len, 4, 8, 12, steps, 7, as, formula, length);
}

/* Every variant of the barred steps against the first, in tables of 0 to 8 slots and plan buffers of 0 to 4 bytes. A caller with all rights must see some
 * difference, or nothing would be compared. */
static void same(const char *what, size_t step_len, enum as as, const uint8_t *formula, size_t length) {
    const struct step variants[] = {{0}, {.cost = 65535}, {.added = 12}, {.added = 15, .cost = 65535}, {.deleted = 15}, {.needed = 15}, {.forbidden = 15},
                                    {.needed = 1, .added = 4, .cost = 1}, {15, 15, 15, 15, 65535}};
    const struct caller by = CALLER(0x0f, 0x1f, 0x0f, 0x00, 0x80, 0x08, 0xff, 0x00), all = {by.needs, by.count, 255};
    int differences = 0;
    for (size_t slots = 0; slots <= 8; slots++)
        for (size_t room = 0; room <= 4; room++) {
            size_t n = with_barred(step_len, variants[0], as, formula, length);
            const struct end first = ended(by, n, slots, room), first_of_all = ended(all, n, slots, room);
            const struct numbers walked = read_through_by(by, job, n, BYTES(1, 2, 4));
            for (size_t i = 1; i < sizeof variants / sizeof *variants; i++) {
                n = with_barred(step_len, variants[i], as, formula, length);
                const struct end end = ended(by, n, slots, room), end_of_all = ended(all, n, slots, room);
                expect(what, end.numbers, first.numbers.number, first.numbers.first, first.numbers.second);
                expect_bytes(what, end.table, first.table, sizeof end.table);
                expect_bytes(what, end.plan, first.plan, sizeof end.plan);
                expect(what, read_through_by(by, job, n, BYTES(1, 2, 0)), 15, 2, 0);
                expect(what, read_through_by(by, job, n, BYTES(1, 2, 4)), walked.number, walked.first, walked.second);
                differences += memcmp(&end_of_all, &first_of_all, sizeof end) != 0;
            }
        }
    if (!differences) printf("%s: no difference with all rights\n", what), failures++;
}

static void twins(size_t step_len) {
    same("twins", step_len, NO_FORMULA);
    same("twins, rule eventually step 3", step_len, RULE(0x21, 0x04, 0x03));
    same("twins, rule always not step 0", step_len, RULE(0x22, 0x10, 0x04, 0x00));
    same("twins, rule not fact 1 until step 5", step_len, RULE(0x23, 0x10, 0x03, 0x01, 0x04, 0x05));
    same("twins, hint always not step 0", step_len, HINT(0x22, 0x10, 0x04, 0x00));
    same("twins, hint next step 3", step_len, HINT(0x20, 0x04, 0x03));
    same("twins, hint fact 3 stays true", step_len, HINT(0x22, 0x03, 0x03));
}

int main(void) {
    unreached();
    lost();
    few_slots();
    formulas();
    growing();
    twins(OLD_STEP), twins(NEW_STEP);
    return finish("barred steps");
}
