/* The task section from C: which lengths are right, and which bits are no facts. By card 1 a step is needed, added, deleted, forbidden (8 bytes each)
 * and the cost (2 bytes); the old form has no forbidden set, and the section's length alone tells the form. */
#include "expect.h"

static uint8_t job[MOST_JOB], table[25 * DAGZHIMO_SLOT], plan[8];

static struct numbers search_job(size_t length) {
    memset(table, 7, sizeof table), memset(plan, 9, sizeof plan);
    return search(job, length, table, sizeof table, plan, sizeof plan);
}

/* Both calls refuse the job, and leave table and plan buffer alone. */
static void expect_refused(const char *what, size_t length, uint64_t number, uint64_t place) {
    expect(what, search_job(length), number, place, 0);
    expect_all(what, plan, sizeof plan, 9);
    expect_all(what, table, sizeof table, 7);
    expect(what, read_through(job, length, BYTES(0, 1, 2)), number, place, 0);
}

/* ---- lengths */

/* One fact, steps that do nothing, a task that is all 0, and after it a rule that is always met: only the length can be wrong. */
static void expect_length(size_t steps, size_t length) {
    int right = length == TASK + OLD_STEP * steps || length == TASK + NEW_STEP * steps;
    char what[80];
    snprintf(what, sizeof what, "%zu steps in a task of %zu bytes", steps, length);
    memset(job, 0, 12 + length);
    job[0] = 1, job[1] = (uint8_t)steps, job[2] = 1;
    put(job + 4, 12, 2), put(job + 6, length, 2), put(job + 8, 12 + length, 2), put(job + 10, 1, 2);
    job[12 + length] = 0x01;
    expect(what, search_job(13 + length), right ? 0 : 2, 0, 0);
    expect(what, read_through(job, 13 + length, NULL, 0), right ? 0 : 2, 0, 0);
}

/* Every length for every number of steps; a few failures are enough. */
static void lengths(void) {
    for (size_t steps = 0; steps <= 64; steps++)
        for (size_t length = 0; length <= TASK + 65 * NEW_STEP && failures < 20; length++) expect_length(steps, length);
}

/* 17 steps in the old form are as long as 13 in the new one. Byte 42 of these steps begins the deleted set of step 1 in the old form (26 + 16), and its
 * added set in the new form (34 + 8); fact 0 is the goal. Another number of steps does not fit the length. */
static void counts(void) {
    for (unsigned steps = 0; steps <= 64; steps++) {
        size_t n = empty_job(job, 1, (uint8_t)steps, TASK + 17 * OLD_STEP);
        job[8 + 8] = 1, job[8 + TASK + 42] = 1;
        if (steps == 13) {
            expect("13 steps in the new form", search_job(n), 0, 0, 1);
            expect_all("13 steps in the new form", plan, 1, 1);
        } else if (steps == 17) {
            expect("17 steps in the old form", search_job(n), 12, 0, 0);
        } else {
            expect_refused("another number of steps", n, 2, 0);
        }
    }
}

/* Without steps both forms are the same 16 bytes. */
static void no_steps(void) {
    size_t n = empty_job(job, 3, 0, TASK);
    expect("no steps, no goal", search_job(n), 0, 0, 0);
    expect("no steps, step 0", read_through(job, n, BYTES(0)), 6, 0, 0);
    job[8 + 8] = 4;
    expect("no steps, a goal", search_job(n), 12, 0, 0);
    expect("no steps, a goal missing", read_through(job, n, NULL, 0), 8, 0, 0);
}

/* ---- sets of P, with steps of 26 or 34 bytes */

static size_t write_plain_p(uint8_t step) { return write_p(job, step, (struct forbidden){0}, GOAL_SCANNED, PLAIN, NULL, 0); }

/* How many sets a step has. */
static size_t sets_of(uint8_t step) { return step == NEW_STEP ? 4 : 3; }

/* Where set i begins, in job order: the start, the goal, then the sets of each step. */
static size_t offset(uint8_t step, size_t i) {
    return i < 2 ? 8 + 8 * i : 8 + TASK + step * ((i - 2) / sets_of(step)) + 8 * ((i - 2) % sets_of(step));
}

/* P has facts 0 to 2. Each bit from 3 on is refused in each set, and of several sets the first in job order. */
static void high_bits(uint8_t step) {
    size_t sets = 2 + 3 * sets_of(step);
    char what[80];
    for (size_t i = 0; i < sets; i++) {
        for (int bit = 3; bit < 64; bit++) {
            size_t n = write_plain_p(step);
            job[offset(step, i) + bit / 8] |= (uint8_t)(1 << bit % 8);
            snprintf(what, sizeof what, "bit %d in set %zu, steps of %d bytes", bit, i, step);
            expect_refused(what, n, 3, offset(step, i));
        }
        size_t n = write_plain_p(step);
        for (size_t j = i; j < sets; j++) job[offset(step, j)] |= 8;
        snprintf(what, sizeof what, "bit 3 in set %zu and all later ones, steps of %d bytes", i, step);
        expect_refused(what, n, 3, offset(step, i));
    }
}

/* A cost is no set: all its bits may be 1. */
static void costs(uint8_t step) {
    size_t n = write_plain_p(step);
    for (size_t i = 1; i <= 3; i++) put(job + 8 + TASK + step * i - 2, 65535, 2);
    expect("steps of cost 65,535", search_job(n), 0, 3 * 65535, 3);
    expect("steps of cost 65,535", read_through(job, n, BYTES(0, 1, 2)), 0, 3 * 65535, 0);
}

int main(void) {
    lengths();
    counts();
    no_steps();
    high_bits(OLD_STEP), high_bits(NEW_STEP);
    costs(OLD_STEP), costs(NEW_STEP);
    return finish("task section");
}
