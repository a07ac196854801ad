/* What the tests in C share: job P of document 01 in both forms of its steps, the planner's calls with their numbers together, and expectations that
 * print what was got and what was expected. */
#ifndef EXPECT_H
#define EXPECT_H

#include <stdio.h>
#include <string.h>

#include "dagzhimo.h"

/* Bytes as two arguments, where they are and how many. */
#define BYTES(...) (const uint8_t[]){__VA_ARGS__}, sizeof((const uint8_t[]){__VA_ARGS__})

static _Atomic int failures;

/* ---- calls */

struct numbers {
    uint64_t number, first, second;
};

/* Who calls: a list of the rights that each step needs, and the rights that the caller holds. */
struct caller {
    const uint8_t *needs;
    size_t count;
    uint8_t rights;
};

/* A caller who may use every step, as the program has it: no rights, and as many zeros as the job's second byte says. */
static inline struct caller anyone(const uint8_t *job, size_t job_len) {
    static const uint8_t zeros[256];
    return (struct caller){zeros, job_len > 1 ? job[1] : 0, 0};
}

static inline struct numbers search_by(struct caller by, const uint8_t *job, size_t job_len, uint8_t *table, size_t table_len, uint8_t *plan,
                                       size_t plan_len) {
    uint64_t out[2] = {77, 77};
    uint64_t number = dagzhimo_search(job, job_len, by.needs, by.count, by.rights, table, table_len, plan, plan_len, out);
    return (struct numbers){number, out[0], out[1]};
}

static inline struct numbers search(const uint8_t *job, size_t job_len, uint8_t *table, size_t table_len, uint8_t *plan, size_t plan_len) {
    return search_by(anyone(job, job_len), job, job_len, table, table_len, plan, plan_len);
}

static inline struct numbers read_through_by(struct caller by, const uint8_t *job, size_t job_len, const uint8_t *steps, size_t steps_len) {
    uint64_t out[2] = {77, 77}, number = dagzhimo_validate(job, job_len, by.needs, by.count, by.rights, steps, steps_len, out);
    return (struct numbers){number, out[0], out[1]};
}

static inline struct numbers read_through(const uint8_t *job, size_t job_len, const uint8_t *steps, size_t steps_len) {
    return read_through_by(anyone(job, job_len), job, job_len, steps, steps_len);
}

static inline struct numbers write_back(uint64_t facts, uint64_t steps, const uint8_t *rule, size_t rule_len, uint8_t *buffer, size_t buffer_len) {
    uint64_t out[2] = {77, 77}, number = dagzhimo_write_back(facts, steps, rule, rule_len, buffer, buffer_len, out);
    return (struct numbers){number, out[0], out[1]};
}

/* ---- expectations */

static inline void expect(const char *what, struct numbers got, uint64_t number, uint64_t first, uint64_t second) {
    if (got.number == number && got.first == first && got.second == second) return;
    printf("%s: got %llu %llu %llu, expected %llu %llu %llu\n", what, (unsigned long long)got.number, (unsigned long long)got.first,
           (unsigned long long)got.second, (unsigned long long)number, (unsigned long long)first, (unsigned long long)second);
    failures++;
}

static inline void print_bytes(const char *word, const uint8_t *bytes, size_t length) {
    printf(" %s", word);
    for (size_t i = 0; i < length; i++) printf(" %02x", bytes[i]);
}

/* Printed up to the last byte that differs. */
static inline void expect_bytes(const char *what, const uint8_t *got, const uint8_t *wanted, size_t length) {
    while (length && got[length - 1] == wanted[length - 1]) length--;
    if (!length) return;
    printf("%s:", what);
    print_bytes("got", got, length);
    print_bytes("expected", wanted, length);
    printf("\n");
    failures++;
}

/* All bytes have one value; the first that has not is printed. */
static inline void expect_all(const char *what, const uint8_t *got, size_t length, uint8_t value) {
    for (size_t i = 0; i < length; i++)
        if (got[i] != value) {
            printf("%s: got %02x at byte %zu, expected %02x\n", what, got[i], i, value);
            failures++;
            return;
        }
}

static inline int finish(const char *name) {
    printf("%s from C: %s\n", name, failures ? "FAILED" : "ok");
    return failures ? 1 : 0;
}

/* ---- bytes of a job */

/* Bytes of start and goal, of a step in the old form and in the new form, which has a forbidden set too, and of the longest job. */
enum { TASK = 16, OLD_STEP = 26, NEW_STEP = 34, MOST_JOB = 4 + 17 * 4 + TASK + 64 * NEW_STEP + 16 * 128 };

static inline void put(uint8_t *at, uint64_t value, int bytes) {
    for (int i = 0; i < bytes; i++, value >>= 8) at[i] = (uint8_t)value;
}

/* Writes a job without formulas and with a task of so many bytes, all 0: empty sets and steps that cost nothing. Gives its length. */
static inline size_t empty_job(uint8_t *job, uint8_t facts, uint8_t steps, size_t task) {
    memset(job, 0, 8 + task);
    job[0] = facts, job[1] = steps;
    put(job + 4, 8, 2), put(job + 6, task, 2);
    return 8 + task;
}

enum as { PLAIN, AS_RULE, AS_HINT };

/* In a set 1 stands for fact 0, 2 for fact 1, 4 for fact 2. */
struct step {
    uint64_t needed, added, deleted, forbidden;
    unsigned cost;
};

/* Steps as two arguments, where they are and how many. */
#define STEPS(...) (const struct step[]){__VA_ARGS__}, sizeof((const struct step[]){__VA_ARGS__}) / sizeof(struct step)

/* Writes a job with steps of so many bytes, of which the old form has no forbidden facts, and with one formula, or with none if it is PLAIN. Gives its
 * length. */
static inline size_t write_steps(uint8_t *job, size_t step_len, uint8_t facts, uint64_t start, uint64_t goal, const struct step *steps, size_t count,
                                 enum as as, const uint8_t *formula, size_t length) {
    size_t at = as == PLAIN ? 8 : 12, size = TASK + step_len * count;
    memset(job, 0, at + size);
    job[0] = facts, job[1] = (uint8_t)count, job[2] = as == AS_RULE, job[3] = as == AS_HINT;
    put(job + 4, at, 2), put(job + 6, size, 2);
    put(job + at, start, 8), put(job + at + 8, goal, 8);
    for (size_t i = 0; i < count; i++) {
        uint8_t *step = job + at + TASK + step_len * i;
        put(step, steps[i].needed, 8), put(step + 8, steps[i].added, 8), put(step + 16, steps[i].deleted, 8);
        if (step_len == NEW_STEP) put(step + 24, steps[i].forbidden, 8);
        put(step + step_len - 2, steps[i].cost, 2);
    }
    if (as == PLAIN) return at + size;
    put(job + 8, at + size, 2), put(job + 10, length, 2), memcpy(job + at + size, formula, length);
    return at + size + length;
}

/* ---- job P: sand adds fact 0 (cost 5), lamp adds fact 1 (cost 2), pass needs both and adds fact 2 (cost 9) */

enum { GOAL_NONE = 0, GOAL_SCANNED = 4, P_ROOM = 12 + TASK + 3 * NEW_STEP + 128 };

/* The facts that each step of P forbids. */
struct forbidden {
    uint8_t sand, lamp, pass;
};

/* Writes P with steps of so many bytes, with this goal and with one formula, or with none if it is PLAIN, and gives its length. */
static inline size_t write_p(uint8_t *job, uint8_t step, struct forbidden forbidden, uint8_t goal, enum as as, const uint8_t *formula, size_t length) {
    const uint8_t at = as == PLAIN ? 8 : 12, size = (uint8_t)(TASK + 3 * step);
    const uint8_t head[12] = {3, 3, as == AS_RULE, as == AS_HINT, at, 0, size, 0, (uint8_t)(at + size), 0, (uint8_t)length, 0};
    uint8_t *task = job + at, *sand = task + TASK, *lamp = sand + step, *pass = lamp + step;
    memcpy(job, head, at);
    memset(task, 0, size);
    task[8] = goal;
    if (step == NEW_STEP) sand[24] = forbidden.sand, lamp[24] = forbidden.lamp, pass[24] = forbidden.pass;
    sand[8] = 1, sand[step - 2] = 5;
    lamp[8] = 2, lamp[step - 2] = 2;
    pass[0] = 3, pass[8] = 4, pass[step - 2] = 9;
    if (as == PLAIN) return at + size;
    memcpy(task + size, formula, length);
    return at + size + length;
}

/* P in the old form. */
static inline size_t job_p(uint8_t *job, uint8_t goal, enum as as, const uint8_t *formula, size_t length) {
    return write_p(job, OLD_STEP, (struct forbidden){0}, goal, as, formula, length);
}

/* P in the new form, with nothing forbidden. */
static inline size_t job_p_new(uint8_t *job, uint8_t goal, enum as as, const uint8_t *formula, size_t length) {
    return write_p(job, NEW_STEP, (struct forbidden){0}, goal, as, formula, length);
}

#endif
