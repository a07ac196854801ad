/* What the benchmarks share: a clock, jobs written as docs/JOB.md has them, and calls by someone who may use every step. */
#ifndef JOBS_H
#define JOBS_H

#include <stdint.h>
#include <stdio.h>
#include <string.h>
#include <time.h>

#include "dagzhimo.h"

typedef struct {
    uint64_t needed, added, deleted, forbidden;
    unsigned cost;
} step;

typedef struct {
    uint8_t bytes[128];
    size_t length;
} formula;

/* The rules come first among the formulas, then the hints. The forbidden facts are written only if `forbids` is set. */
typedef struct {
    unsigned facts, steps, rules, hints, forbids;
    uint64_t start, goal;
    step step[64];
    formula formula[16];
} task;

static inline double seconds(void) {
    struct timespec t;
    clock_gettime(CLOCK_PROCESS_CPUTIME_ID, &t);
    return (double)t.tv_sec + (double)t.tv_nsec / 1e9;
}

static inline void put(uint8_t *at, uint64_t value, int bytes) {
    for (int i = 0; i < bytes; i++, value >>= 8) at[i] = (uint8_t)value;
}

/* Writes the job's bytes, at most 8,192, and gives their number. */
static inline size_t write_job(const task *t, uint8_t *job) {
    size_t sections = 1u + t->rules + t->hints, at = 4 + 4 * sections, stride = t->forbids ? 34 : 26, size = 16 + stride * t->steps;
    memset(job, 0, 8192);
    job[0] = (uint8_t)t->facts, job[1] = (uint8_t)t->steps, job[2] = (uint8_t)t->rules, job[3] = (uint8_t)t->hints;
    put(job + 4, at, 2), put(job + 6, size, 2);
    put(job + at, t->start, 8), put(job + at + 8, t->goal, 8);
    for (unsigned i = 0; i < t->steps; i++) {
        uint8_t *step = job + at + 16 + stride * i;
        put(step, t->step[i].needed, 8), put(step + 8, t->step[i].added, 8), put(step + 16, t->step[i].deleted, 8);
        if (t->forbids) put(step + 24, t->step[i].forbidden, 8);
        put(step + stride - 2, t->step[i].cost, 2);
    }
    at += size;
    for (unsigned i = 0; i + 1 < sections; i++) {
        put(job + 8 + 4 * i, at, 2), put(job + 10 + 4 * i, t->formula[i].length, 2);
        memcpy(job + at, t->formula[i].bytes, t->formula[i].length);
        at += t->formula[i].length;
    }
    return at;
}

/* A list of needed rights by which every step may be used: as many of these as the job's second byte says. */
static const uint8_t zeros[64];

static inline uint64_t search_job(const uint8_t *job, size_t job_len, uint8_t *table, size_t table_len, uint8_t *plan, size_t plan_len,
                                  uint64_t out[2]) {
    return dagzhimo_search(job, job_len, zeros, job[1], 0, table, table_len, plan, plan_len, out);
}

static inline uint64_t walk_job(const uint8_t *job, size_t job_len, const uint8_t *steps, size_t steps_len, uint64_t out[2]) {
    return dagzhimo_validate(job, job_len, zeros, job[1], 0, steps, steps_len, out);
}

/* One more fact and one more step: the fact is the goal, and the step adds it, needs all others, and forbids fact 0, which it needs. So the goal can be
 * built, as the estimate has it, which overlooks what is forbidden, but never reached: a search visits all nodes. */
static inline task out_of_reach(task t) {
    uint64_t fact = 1ull << t.facts;
    t.step[t.steps] = (step){fact - 1, fact, 0, 1, 1};
    t.facts++, t.steps++, t.goal = fact, t.forbids = 1;
    return t;
}

/* always (not SYMBOL, or eventually (one of the facts)), in exactly `length` bytes: the facts are named in turn, as often as there is room, and
 * where two bytes are left a double not stands before the last. So `length` is 8 or 10 more than a multiple of 3. The formula stays open
 * whatever happens. SYMBOL is a fact (code 3) or a step (code 4). */
static inline formula response(uint8_t code, unsigned symbol, const uint8_t *facts, unsigned count, size_t length) {
    formula f = {{0x22, 0x12, 0x10, code, (uint8_t)symbol, 0x21}, 6};
    unsigned i = 0;
    for (; f.length + 5 <= length; i++) {
        f.bytes[f.length++] = 0x12, f.bytes[f.length++] = 0x03, f.bytes[f.length++] = facts[i % count];
    }
    if (f.length + 4 == length) f.bytes[f.length++] = 0x10, f.bytes[f.length++] = 0x10;
    f.bytes[f.length++] = 0x03, f.bytes[f.length++] = facts[i % count];
    return f;
}

#endif
