/* What the estimate spares and what it costs: the slots that searches need and the time that they take, on jobs where it is exact, weak, or says
 * nothing; and the time of one estimate. */
#include <stdlib.h>

#include "jobs.h"

static uint8_t job[8192], plan[1024], *table;

static uint64_t search(size_t length, size_t slots, uint64_t out[2]) {
    return search_job(job, length, table, slots * DAGZHIMO_SLOT, plan, sizeof plan, out);
}

/* The fewest slots with which the search does not end in 10. More slots never make it end so. */
static size_t slots_needed(size_t length) {
    size_t low = 0, high = DAGZHIMO_MOST_SLOTS;
    uint64_t out[2];
    while (low < high) {
        size_t middle = (low + high) / 2;
        if (search(length, middle, out) == DAGZHIMO_TABLE_TOO_SMALL) low = middle + 1;
        else high = middle;
    }
    return low;
}

/* The least time of a search, over at least three and half a second. */
static double least_time(size_t length, size_t slots) {
    double best = 1e9, spent = 0;
    int calls = slots < 500 ? 100 : 1;
    uint64_t out[2];
    for (int i = 0; i < 3 || spent < 0.5; i++) {
        double start = seconds();
        for (int c = 0; c < calls; c++) search(length, slots, out);
        double took = seconds() - start;
        spent += took;
        if (took / calls < best) best = took / calls;
    }
    return best;
}

static void run(const char *what, const task *t) {
    size_t length = write_job(t, job), slots = slots_needed(length);
    uint64_t out[2], answer = search(length, slots, out);
    double time = least_time(length, slots);
    printf("%-52s answer %2llu %8llu %6zu slots %12.1f us\n", what, (unsigned long long)answer, (unsigned long long)out[0], slots, time * 1e6);
}

/* Steps of cost 100, each of which needs the fact of the one before; the last fact is the goal. Beside them steps of cost 1 that add a fact each which
 * nothing needs, so that the cheapest nodes are of no use. */
static task chain(unsigned length, unsigned useless) {
    task t = {.facts = length + useless, .steps = length + useless, .goal = 1ull << (length - 1)};
    for (unsigned i = 0; i < length; i++) t.step[i] = (step){i ? 1ull << (i - 1) : 0, 1ull << i, 0, 0, 100};
    for (unsigned i = length; i < t.steps; i++) t.step[i] = (step){0, 1ull << i, 0, 0, 1};
    return t;
}

/* So many cores, each sanded, mounted, lit and scanned in this order, and labelled at any time; all facts are the goal. Each core has to be paid for,
 * and the estimate counts the dearest alone. */
static task cores(unsigned n) {
    task t = {.facts = 5 * n, .steps = 5 * n, .goal = (1ull << 5 * n) - 1};
    for (unsigned i = 0; i < 5 * n; i++) {
        unsigned stage = i % 5;
        t.step[i] = (step){stage == 0 || stage == 4 ? 0 : 1ull << (i - 1), 1ull << i, 0, 0, 1 + (7 * stage + 3 * (i / 5)) % 5};
    }
    return t;
}

/* The same with no goal, but rules: all facts of a core are true at last, for at most 8 cores. So the estimate is 0 everywhere. */
static task ruled(unsigned n) {
    task t = cores(n);
    t.goal = 0, t.rules = n;
    for (unsigned i = 0; i < n; i++) {
        formula f = {{0x21}, 1};
        for (unsigned k = 0; k < 5; k++) {
            if (k < 4) f.bytes[f.length++] = 0x11;
            f.bytes[f.length++] = 0x03, f.bytes[f.length++] = (uint8_t)(5 * i + k);
        }
        t.formula[i] = f;
    }
    return t;
}

/* A chain of n steps from a true fact on, whose last fact can never be built: it is the goal, and its step needs it. So a search is one estimate, which
 * takes as many turns as there are facts that can be built, and ends in 12. */
static task hopeless(unsigned n) {
    task t = {.facts = n, .steps = n, .start = 1, .goal = 1ull << (n - 1)};
    for (unsigned i = 0; i < n; i++) t.step[i] = (step){1ull << (i ? i - 1 : 0), 1ull << i, 0, 0, 3};
    t.step[n - 1].needed |= t.goal;
    return t;
}

int main(void) {
    table = malloc(DAGZHIMO_MOST_TABLE);
    task t;
    t = chain(8, 7), run("exact: a chain of 8 beside 7 steps of no use", &t);
    t = chain(8, 10), run("exact: a chain of 8 beside 10 steps of no use", &t);
    t = chain(1, 10), run("exact: one step beside 10 of no use", &t);
    t = chain(1, 13), run("exact: one step beside 13 of no use", &t);
    t = cores(3), run("weak: 3 cores, all facts the goal", &t);
    t = cores(4), run("weak: 4 cores, all facts the goal", &t);
    t = ruled(3), run("nothing: 3 cores, rules and no goal", &t);
    t = ruled(4), run("nothing: 4 cores, rules and no goal", &t);
    t = hopeless(13), run("one estimate: 13 facts and steps, 12 turns", &t);
    t = hopeless(64), run("one estimate: 64 facts and steps, 63 turns", &t);
    return 0;
}
