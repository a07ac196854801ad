/* How fast the search goes on jobs of growing size, beside a plain search in C of the same jobs with the same data structure (one array of nodes,
 * looked through from the start), which nobody has proved. The goal is out of reach, so all nodes are visited. */
#include <stdlib.h>

#include "jobs.h"

/* n facts and n steps, step i adding fact i at cost 1 + i. The rule, where there is one: always (not fact 0, or eventually (fact 1 or fact 0)). */
static task subsets(unsigned n, unsigned rules) {
    task t = {.facts = n, .steps = n, .rules = rules};
    for (unsigned i = 0; i < n; i++) t.step[i] = (step){0, 1ull << i, 0, 0, 1 + i};
    t.formula[0] = (formula){{0x22, 0x12, 0x10, 0x03, 0x00, 0x21, 0x12, 0x03, 0x01, 0x03, 0x00}, 11};
    return out_of_reach(t);
}

/* ---- the plain search */

typedef struct {
    uint64_t state, residual, cost, steps;
    uint32_t parent, action;
    int taken;
} node;

/* what the rule of subsets leaves: two carried parts, always (0) and eventually (1); tables over 4 settings */
static uint64_t progress(uint64_t residual, uint64_t state, int first) {
    uint64_t inner = ((state | state >> 1) & 1) ? 0xf : 0xc; /* eventually: true now, or unknown 1 */
    uint64_t outer = (((state & 1) ? 0 : 0xf) | inner) & 0xa; /* always: body now and unknown 0 */
    if (first) return outer;
    uint64_t result = 0;
    for (int k = 0; k < 4; k++) result |= (residual >> ((outer >> k & 1) | (inner >> k & 1) << 1) & 1) << k;
    return result;
}

static size_t plain_search(const task *t, node *nodes, uint64_t *successors) {
    size_t held = 1;
    *successors = 0;
    memset(nodes, 0, sizeof *nodes);
    nodes[0].residual = t->rules ? progress(0, 0, 1) : 1;
    for (;;) {
        size_t best = held;
        for (size_t i = 0; i < held; i++)
            if (!nodes[i].taken && (best == held || nodes[i].cost < nodes[best].cost ||
                                    (nodes[i].cost == nodes[best].cost && nodes[i].steps < nodes[best].steps)))
                best = i;
        if (best == held) return held;
        nodes[best].taken = 1;
        for (unsigned a = 0; a + 1 < t->steps; a++) { /* the last step, which alone needs something, is never applicable */
            uint64_t state = nodes[best].state | t->step[a].added, residual = t->rules ? progress(nodes[best].residual, state, 0) : 1;
            uint64_t c = nodes[best].cost + t->step[a].cost, s = nodes[best].steps + 1;
            size_t i = 0;
            ++*successors;
            if (!residual) continue;
            while (i < held && (nodes[i].state != state || nodes[i].residual != residual)) i++;
            if (i < held && (nodes[i].taken || nodes[i].cost < c || (nodes[i].cost == c && nodes[i].steps <= s))) continue;
            if (i == held) held++;
            nodes[i] = (node){state, residual, c, s, (uint32_t)best, a, 0};
        }
    }
}

/* The least time of each over three runs and a third of a second of ours; one run where that takes seconds. */
int main(void) {
    static const unsigned sizes[] = {7, 10, 13, 15, 16};
    static uint8_t job[8192], plan[64];
    uint8_t *table = malloc(DAGZHIMO_MOST_TABLE);
    node *nodes = malloc(DAGZHIMO_MOST_SLOTS * sizeof *nodes);
    printf("%-22s %8s %11s %10s %12s %10s %7s\n", "job", "nodes", "successors", "seconds", "nodes/s", "plain s", "ratio");
    for (unsigned rules = 0; rules < 2; rules++)
        for (unsigned k = 0; k < (rules ? 3 : 5); k++) {
            unsigned n = sizes[k];
            task t = subsets(n, rules);
            size_t length = write_job(&t, job), held = 0, table_len = (DAGZHIMO_SLOT * (size_t)1) << n;
            uint64_t out[2], successors = 0;
            double ours = 1e9, plain = 1e9, spent = 0;
            for (int i = 0; spent < 0.3 || (i < 3 && spent < 2); i++) {
                double start = seconds();
                uint64_t answer = search_job(job, length, table, table_len, plan, sizeof plan, out);
                double took = seconds() - start;
                spent += took;
                if (took < ours) ours = took;
                if (answer != 12) printf("unexpected answer %llu\n", (unsigned long long)answer);
                start = seconds();
                held = plain_search(&t, nodes, &successors);
                took = seconds() - start;
                if (took < plain) plain = took;
            }
            printf("%2u facts, %s %8zu %11llu %10.5f %12.0f %10.5f %7.2f\n", n, rules ? "one rule   " : "no rule    ", held,
                   (unsigned long long)successors, ours, (double)held / ours, plain, ours / plain);
        }
    return 0;
}
