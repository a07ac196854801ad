/* How long a search with rules and hints takes, on jobs of 100, 1,000 and 10,000 nodes in a table of as many places, and on small jobs in a
 * table of 64 KB. Every node is visited, since the goal is out of reach. */
#include <stdlib.h>

#include "jobs.h"

static uint8_t job[8192], plan[1024], *table;

/* So many cores. Each is sanded, mounted, lit and scanned, in this order, and labelled at any time: five facts and five steps, ten states. A
 * step may be repeated, which leads to the same node. */
static task cores(unsigned n) {
    task t = {.facts = 5 * n, .steps = 5 * n};
    for (unsigned i = 0; i < 5 * n; i++) {
        unsigned stage = i % 5;
        t.step[i] = (step){stage == 0 || stage == 4 ? 0 : 1ull << (i - 1), 1ull << i, 0, 0, 1 + (7 * stage + 3 * (i / 5)) % 5};
    }
    return out_of_reach(t);
}

/* The same, but a step is forbidden where its fact is true already, so that no step is repeated. */
static task once(task t) {
    for (unsigned i = 0; i + 1 < t.steps; i++) t.step[i].forbidden = t.step[i].added;
    return t;
}

/* Formulas of so many bytes: what began at one core is answered at so many others. Every other one is on a step. */
static void add_formulas(task *t, unsigned rules, unsigned hints, unsigned n, unsigned span, size_t length) {
    t->rules = rules, t->hints = hints;
    for (unsigned i = 0; i < rules + hints; i++) {
        uint8_t facts[64];
        for (unsigned k = 0; k < 5 * span; k++) facts[k] = (uint8_t)(5 * ((i + 1 + k / 5) % n) + k % 5);
        t->formula[i] = response(i % 2 ? 4 : 3, 5 * (i % n) + i % 5, facts, 5 * span, length);
    }
}

/* The least time of one search over at least three and half a second, where it ends in 12. */
static void run(const char *what, const task *t, size_t places) {
    size_t length = write_job(t, job);
    uint64_t out[2], answer = 0;
    double best = 1e9, spent = 0;
    for (int i = 0; i < 3 || spent < 0.5; i++) {
        int calls = places < 500 ? 20 : 1;
        double start = seconds();
        for (int c = 0; c < calls; c++) answer = search_job(job, length, table, places * 160, plan, sizeof plan, out);
        double took = seconds() - start;
        spent += took;
        if (took / calls < best) best = took / calls;
    }
    if (answer != 12) printf("unexpected answer %llu\n", (unsigned long long)answer);
    printf("%-52s %6zu places %12.1f us\n", what, places, best * 1e6);
}

int main(void) {
    table = malloc(10000 * 160);
    size_t places = 1;
    for (unsigned n = 1; n <= 4; n++) {
        task t = cores(n), u = once(t);
        places = n == 1 ? 409 : n == 2 ? 100 : 10 * places;
        unsigned span = n < 2 ? n : 2;
        run("no rule", &t, places);
        run("no rule, no step repeated", &u, places);
        add_formulas(&t, 8, 0, n, 1, 11), run("8 rules of 11 bytes", &t, places);
        add_formulas(&t, 4, 4, n, 1, 11), run("4 rules and 4 hints of 11 bytes", &t, places);
        add_formulas(&t, 8, 0, n, span, 124), run("8 rules of 124 bytes, answered at two cores", &t, places);
        add_formulas(&t, 4, 4, n, span, 124), run("4 rules and 4 hints of 124 bytes, answered at two", &t, places);
        add_formulas(&t, 8, 0, n, n, 124), run("8 rules of 124 bytes, answered at all cores", &t, places);
        add_formulas(&t, 7, 0, n, span, 124), t.rules = 8, t.goal = 0;
        t.formula[7] = (formula){{0x21, 0x03, (uint8_t)(5 * n)}, 3};
        run("7 rules of 124 bytes, and the last is the goal", &t, places);
    }
    return 0;
}
