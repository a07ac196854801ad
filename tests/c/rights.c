/* Card 4 from C: which lists of needed rights are refused and when, which rights let a caller use a step, and what a read-through says of a step that the
 * caller may not use. What barred steps mean to a search is in barred.c. */
#include "expect.h"

enum { SLOT = DAGZHIMO_SLOT, MANY = 65536 };

/* `list` has zeros for 64 steps, and other bytes after them. */
static uint8_t job[MOST_JOB], table[8 * SLOT], plan[8], list[MANY + 64], many[MANY];

/* A caller with this list and these rights. */
#define CALLER(held, ...) ((struct caller){BYTES(__VA_ARGS__), held})

static size_t write_p_plain(void) { return job_p(job, GOAL_SCANNED, PLAIN, NULL, 0); }

/* ---- lists of another length */

/* A search and a read-through of sand, lamp, pass are refused so, and leave the list, table and plan buffer as they were, zeros or other bytes. */
static void expect_refused(const char *what, struct caller by, size_t length, uint64_t number, uint64_t place) {
    static uint8_t before[sizeof list];
    memcpy(before, list, sizeof list);
    for (uint8_t byte = 0; byte < 8; byte += 7) {
        memset(table, byte, sizeof table), memset(plan, byte + 2, sizeof plan);
        expect(what, search_by(by, job, length, table, sizeof table, plan, sizeof plan), number, place, 0);
        expect_all(what, table, sizeof table, byte);
        expect_all(what, plan, sizeof plan, byte + 2);
    }
    expect(what, read_through_by(by, job, length, BYTES(0, 1, 2)), number, place, 0);
    expect_bytes(what, list, before, sizeof list);
}

/* A list of so many bytes for a job of so many steps that do nothing: 14 with its length, whatever the rights are, unless it has the right one. */
static void expect_length(size_t steps, size_t count) {
    const struct caller none = {list, count, 0}, all = {list, count, 255}, missing = {NULL, 0, 0};
    size_t n = empty_job(job, 3, (uint8_t)steps, TASK + OLD_STEP * steps);
    char what[80];
    snprintf(what, sizeof what, "%zu steps, a list of %zu bytes", steps, count);
    if (count == steps) {
        expect(what, search_by(none, job, n, table, sizeof table, plan, sizeof plan), 0, 0, 0);
        expect(what, read_through_by(none, job, n, NULL, 0), 0, 0, 0);
        return;
    }
    expect_refused(what, none, n, 14, count);
    expect_refused(what, all, n, 14, count);
    if (!count) expect_refused(what, missing, n, 14, 0);
}

/* Every length up to 300, and one whose lowest 16 bits are right. */
static void lengths(void) {
    const size_t steps[] = {0, 1, 3, 64};
    for (size_t i = 0; i < sizeof steps / sizeof *steps; i++) {
        for (size_t count = 0; count <= 300; count++) expect_length(steps[i], count);
        expect_length(steps[i], MANY + steps[i]);
    }
    size_t n = empty_job(job, 3, 0, TASK);
    const struct caller nobody = {NULL, 0, 0};
    expect("no steps, no list at all", search_by(nobody, job, n, table, sizeof table, plan, sizeof plan), 0, 0, 0);
    expect("no steps, no list at all", read_through_by(nobody, job, n, NULL, 0), 0, 0, 0);
    expect("no steps, no list at all, step 0", read_through_by(nobody, job, n, BYTES(0)), 6, 0, 0);
    expect("nothing at all", search_by(nobody, NULL, 0, NULL, 0, NULL, 0), 1, 0, 0);
    expect("nothing at all", read_through_by(nobody, NULL, 0, NULL, 0), 1, 0, 0);
}

/* ---- 14 after 1 to 5 */

static void after_5(void) {
    const struct caller shorter = CALLER(0, 0, 0), longer = CALLER(255, 0, 0, 0, 0), none = {NULL, 0, 0}, callers[] = {shorter, longer, none};
    for (size_t i = 0; i < sizeof callers / sizeof *callers; i++) {
        struct caller by = callers[i];
        size_t n = write_p_plain();
        expect_refused("empty job", by, 0, 1, 0);
        expect_refused("cut off", by, n - 1, 2, 0);
        job[8] = 8;
        expect_refused("fact 3 of 3", by, n, 3, 8);
        expect_refused("step 3 of 3", by, job_p(job, GOAL_SCANNED, AS_RULE, BYTES(0x21, 0x04, 0x03)), 4, 108);
        expect_refused("hint with a byte left", by, job_p(job, GOAL_SCANNED, AS_HINT, BYTES(0x01, 0x01)), 4, 107);
        expect_refused("seven times next", by, job_p(job, GOAL_SCANNED, AS_RULE, BYTES(0x20, 0x20, 0x20, 0x20, 0x20, 0x20, 0x20, 0x03, 0x00)), 5, 113);
        expect_refused("six times next", by, job_p(job, GOAL_SCANNED, AS_RULE, BYTES(0x20, 0x20, 0x20, 0x20, 0x20, 0x20, 0x03, 0x00)), 14, by.count);
    }
}

/* ---- 14 before everything else; without it each of these would be refused with another number */

static void before_others(void) {
    const struct caller right = CALLER(0, 0, 0, 0), wrong = CALLER(0, 0, 0);
    size_t n = write_p_plain();
    memset(many, 0, sizeof many);
    expect("over 65,535 steps", read_through_by(right, job, n, many, MANY), 6, 65535, 0);
    expect("over 65,535 steps, wrong list", read_through_by(wrong, job, n, many, MANY), 14, 2, 0);
    expect("no such step", read_through_by(right, job, n, BYTES(3)), 6, 0, 0);
    expect("no such step, wrong list", read_through_by(wrong, job, n, BYTES(3)), 14, 2, 0);
    expect("step 2, which the list does not reach", read_through_by(wrong, job, n, BYTES(2)), 14, 2, 0);
    expect("goal missing, wrong list", read_through_by(wrong, job, n, NULL, 0), 14, 2, 0);
    expect("13", search_by(right, job, n, table, sizeof table, plan, 2), 13, 3, 0);
    expect("13, wrong list", search_by(wrong, job, n, table, sizeof table, plan, 2), 14, 2, 0);
    expect("10, wrong list", search_by(wrong, job, n, table, 0, plan, sizeof plan), 14, 2, 0);
    expect("10, wrong list, no table at all", search_by(wrong, job, n, NULL, 0, NULL, 0), 14, 2, 0);
    n = job_p(job, GOAL_SCANNED, AS_RULE, BYTES(0x00));
    expect("12", search_by(right, job, n, table, sizeof table, plan, sizeof plan), 12, 0, 0);
    expect_refused("12, wrong list", wrong, n, 14, 2);
    n = job_p(job, GOAL_SCANNED, AS_HINT, BYTES(0x00));
    expect("11", search_by(right, job, n, table, sizeof table, plan, sizeof plan), 11, 0, 0);
    expect_refused("11, wrong list", wrong, n, 14, 2);
}

/* ---- a step of a list: 6, then 15, then 7 */

static void positions(void) {
    const struct caller no_sand = CALLER(0xfe, 0x01, 0x00, 0xfe), no_pass = CALLER(0x7f, 0x00, 0x7f, 0x80), nothing = CALLER(0, 1, 2, 4);
    size_t n = write_p_plain();
    expect("sand is barred", read_through_by(no_sand, job, n, BYTES(0, 1, 2)), 15, 0, 0);
    expect("sand is barred, after lamp", read_through_by(no_sand, job, n, BYTES(1, 1, 0, 2)), 15, 2, 0);
    expect("sand is barred, and not in the list", read_through_by(no_sand, job, n, BYTES(1, 1)), 8, 0, 0);
    expect("pass is barred, and would not be applicable", read_through_by(no_pass, job, n, BYTES(0, 2)), 15, 1, 0);
    expect("pass is barred, at the end", read_through_by(no_pass, job, n, BYTES(0, 1, 2)), 15, 2, 0);
    expect("pass is not applicable, and sand is barred later", read_through_by(no_sand, job, n, BYTES(1, 2, 0)), 7, 1, 0);
    expect("sand is barred, and pass would not be applicable later", read_through_by(no_sand, job, n, BYTES(1, 0, 2)), 15, 1, 0);
    expect("every step is barred", read_through_by(nothing, job, n, BYTES(2, 1, 0)), 15, 0, 0);
    expect("every step is barred, the empty list", read_through_by(nothing, job, n, NULL, 0), 8, 0, 0);
    /* a number that is no step has no rights to look at */
    expect("no such step, every step is barred", read_through_by(nothing, job, n, BYTES(3)), 6, 0, 0);
    expect("step 255, every step is barred", read_through_by(nothing, job, n, BYTES(255, 0)), 6, 0, 0);
    expect("no such step after a barred one", read_through_by(no_sand, job, n, BYTES(1, 0, 3)), 15, 1, 0);
    expect("no such step before a barred one", read_through_by(no_sand, job, n, BYTES(1, 3, 0)), 6, 1, 0);
    memset(many, 0, sizeof many);
    expect("over 65,535 steps, all barred", read_through_by(no_sand, job, n, many, MANY), 6, 65535, 0);
    memset(many, 1, sizeof many), many[65534] = 0;
    expect("65,535 steps, the last barred", read_through_by(no_sand, job, n, many, 65535), 15, 65534, 0);
    /* 15 before what is judged at the end */
    n = job_p(job, GOAL_NONE, AS_RULE, BYTES(0x00));
    expect("a rule is not met, and lamp is barred", read_through_by(CALLER(0, 0, 1, 0), job, n, BYTES(1)), 15, 0, 0);
    expect("a rule is not met", read_through_by(CALLER(1, 0, 1, 0), job, n, BYTES(1)), 9, 0, 0);
}

/* ---- which rights let a caller use a step */

/* A job whose only plan is its only step, for every byte of needed rights and every byte of held ones. A few failures are enough. */
static void every_byte(void) {
    size_t n = write_steps(job, OLD_STEP, 1, 0, 1, STEPS({.added = 1, .cost = 3}), PLAIN, NULL, 0);
    char what[80];
    for (unsigned needed = 0; needed < 256; needed++)
        for (unsigned held = 0; held < 256 && failures < 20; held++) {
            const uint8_t needs = (uint8_t)needed;
            const struct caller by = {&needs, 1, (uint8_t)held};
            int usable = 1;
            for (int bit = 0; bit < 8; bit++) usable = usable && (!(needed >> bit & 1) || held >> bit & 1);
            snprintf(what, sizeof what, "needed rights %02x, held %02x", needed, held);
            plan[0] = 9;
            expect(what, search_by(by, job, n, table, 2 * SLOT, plan, 1), usable ? 0 : 12, usable ? 3 : 0, (uint64_t)usable);
            expect_all(what, plan, 1, usable ? 0 : 9);
            expect(what, read_through_by(by, job, n, BYTES(0)), usable ? 0 : 15, usable ? 3 : 0, 0);
        }
}

/* 64 steps that all add the goal. Each in its turn is the cheapest, and barred or not, and then the only one that is not barred. */
static void every_step(void) {
    struct step steps[64];
    uint8_t needs[64];
    char what[80];
    for (uint8_t turn = 0; turn < 64; turn++) {
        uint8_t right = (uint8_t)(1 << turn % 8), others = (uint8_t)~right, first = turn == 0;
        struct caller by = {needs, 64, others};
        for (int i = 0; i < 64; i++) steps[i] = (struct step){.added = 1, .cost = i == turn ? 1 : 2}, needs[i] = i == turn ? right : others;
        size_t n = write_steps(job, turn % 2 ? NEW_STEP : OLD_STEP, 1, 0, 1, steps, 64, PLAIN, NULL, 0);
        snprintf(what, sizeof what, "step %d of 64 is barred", turn);
        expect(what, search_by(by, job, n, table, 2 * SLOT, plan, 1), 0, 2, 1);
        expect_all(what, plan, 1, first);
        for (uint8_t i = 0; i < 64; i++) expect(what, read_through_by(by, job, n, &i, 1), i == turn ? 15 : 0, i == turn ? 0 : 2, 0);
        by.rights = right;
        snprintf(what, sizeof what, "only step %d of 64 is not barred", turn);
        expect(what, search_by(by, job, n, table, 2 * SLOT, plan, 1), 0, 1, 1);
        expect_all(what, plan, 1, turn);
        for (uint8_t i = 0; i < 64; i++) expect(what, read_through_by(by, job, n, &i, 1), i == turn ? 0 : 15, i == turn, 0);
        by.rights = 255;
        snprintf(what, sizeof what, "no step of 64 is barred, %d is the cheapest", turn);
        expect(what, search_by(by, job, n, table, 2 * SLOT, plan, 1), 0, 1, 1);
        expect_all(what, plan, 1, turn);
    }
}

int main(void) {
    for (size_t i = 64; i < sizeof list; i++) list[i] = (uint8_t)(37 * i);
    lengths();
    after_5();
    before_others();
    positions();
    every_byte();
    every_step();
    return finish("rights");
}
