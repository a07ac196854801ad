/* How long the read-through takes: of 65,535 steps without rules, with rules that are settled after the first step, and with rules that stay
 * open; and of short lists, where the time of a call itself counts. */
#include "jobs.h"

static uint8_t job[8192], steps[65535];

/* The least time of one call, over at least `runs` calls and half a second. A rule that is not met at the end, 9, is found after the whole walk. */
static double least(size_t length, size_t count, int runs) {
    uint64_t out[2];
    double best = 1e9, spent = 0;
    for (int i = 0; i < runs || spent < 0.5; i++) {
        int calls = count < 100 ? 1000 : 1;
        double start = seconds();
        for (int c = 0; c < calls; c++) {
            uint64_t answer = walk_job(job, length, steps, count, out);
            if (answer != 0 && answer != 9) printf("refused %llu %llu\n", (unsigned long long)answer, (unsigned long long)out[0]);
        }
        double took = seconds() - start;
        spent += took;
        if (took / calls < best) best = took / calls;
    }
    return best;
}

static void whole_list(const char *what, const task *t) {
    double took = least(write_job(t, job), sizeof steps, 5);
    printf("%-60s %8.2f ms %7.1f ns a step\n", what, took * 1e3, took * 1e9 / sizeof steps);
}

static void short_list(const char *what, const task *t, size_t count) {
    printf("%-60s %8.0f ns a call\n", what, least(write_job(t, job), count, 5) * 1e9);
}

/* One fact, one step that adds it again; 8 rules and 8 hints, all the same. */
static task repeated(formula f) {
    task t = {.facts = 1, .steps = 1, .rules = 8, .hints = 8, .step = {{0, 1, 0, 0, 1}}};
    for (int i = 0; i < 16; i++) t.formula[i] = f;
    return t;
}

/* 24 facts, each with a step that adds it and one that deletes it; 8 rules, each on one symbol and `named` facts. Every other one is on a step. */
static task switches(unsigned named, size_t length) {
    task t = {.facts = 24, .steps = 48, .rules = 8};
    for (unsigned i = 0; i < 24; i++) t.step[i] = (step){0, 1ull << i, 0, 0, 1}, t.step[24 + i] = (step){0, 0, 1ull << i, 0, 1};
    for (unsigned i = 0; i < 8; i++) {
        uint8_t facts[24];
        for (unsigned k = 0; k < named; k++) facts[k] = (uint8_t)((3 * i + 1 + k) % 24);
        t.formula[i] = response(i % 2 ? 4 : 3, 3 * i, facts, named, length);
    }
    return t;
}

int main(void) {
    const uint8_t fact[1] = {0};
    /* eventually ((fact 0 until fact 0) or not always step 0): true after the first step */
    formula settled = {{0x21, 0x12, 0x23, 0x03, 0, 0x03, 0, 0x10, 0x22, 0x04, 0}, 11};
    formula settled_long = response(3, 0, fact, 1, 124);
    settled_long.bytes[0] = 0x21;
    task none = {.facts = 1, .steps = 1, .step = {{0, 1, 0, 0, 1}}}, t;

    whole_list("no rule", &none);
    t = none, t.facts = 2, t.forbids = 1, t.step[0].forbidden = 2, whole_list("no rule, a forbidden fact", &t);
    t = repeated(settled), whole_list("8 rules and 8 hints of 11 bytes, settled", &t);
    t = repeated(settled_long), whole_list("8 rules and 8 hints of 124 bytes, settled", &t);
    t = repeated(response(3, 0, fact, 1, 11)), whole_list("8 rules and 8 hints of 11 bytes, open", &t);
    t = repeated(response(3, 0, fact, 1, 124)), whole_list("8 rules and 8 hints of 124 bytes, open", &t);

    uint64_t seed = 88172645463325252ull;
    for (size_t i = 0; i < sizeof steps; i++) {
        seed ^= seed << 13, seed ^= seed >> 7, seed ^= seed << 17;
        steps[i] = (uint8_t)(seed % 48);
    }
    t = switches(2, 11), whole_list("48 steps at random, 8 open rules of 11 bytes on 3 symbols", &t);
    t = switches(5, 124), whole_list("48 steps at random, 8 open rules of 124 bytes on 6 symbols", &t);
    t = switches(24, 124), whole_list("48 steps at random, 8 open rules of 124 bytes on all facts", &t);

    memset(steps, 0, sizeof steps);
    short_list("3 steps, no rule", &none, 3);
    t = repeated(response(3, 0, fact, 1, 11)), short_list("3 steps, 8 rules and 8 hints of 11 bytes, open", &t, 3);
    short_list("30 steps, 8 rules and 8 hints of 11 bytes, open", &t, 30);
    t = repeated(response(3, 0, fact, 1, 124)), short_list("3 steps, 8 rules and 8 hints of 124 bytes, open", &t, 3);
    return 0;
}
