/* What barred steps cost: searches of a job of 64 steps most of which the caller may not use, of the same job by a caller who may use all of them, and of
 * the job that has the few usable steps alone. All three find the same plan and reach the same nodes. */
#include <stdlib.h>

#include "jobs.h"

static uint8_t job[8192], plan[64], *table;

/* So many facts, all of them the goal, and so many steps: each adds one fact in its turn, the first steps for less than all later ones, which lead to no
 * other node. */
static task turns(unsigned facts, unsigned steps) {
    task t = {.facts = facts, .steps = steps, .goal = (1ull << facts) - 1};
    for (unsigned i = 0; i < steps; i++) t.step[i] = (step){0, 1ull << i % facts, 0, 0, 1 + i};
    return t;
}

/* The least time of one search over at least three and half a second. Steps from `usable` on need a right, which is not held. */
static double run(const char *what, const task *t, unsigned usable, uint64_t wanted) {
    size_t length = write_job(t, job), table_len = (size_t)DAGZHIMO_SLOT << t->facts;
    uint8_t needs[64] = {0};
    uint64_t out[2], answer = 0;
    double best = 1e9, spent = 0;
    for (unsigned i = usable; i < t->steps; i++) needs[i] = 1;
    for (int i = 0; i < 3 || spent < 0.5; i++) {
        int calls = t->facts < 8 ? 1000 : 1;
        double start = seconds();
        for (int c = 0; c < calls; c++) answer = dagzhimo_search(job, length, needs, t->steps, 0, table, table_len, plan, sizeof plan, out);
        double took = seconds() - start;
        spent += took;
        if (took / calls < best) best = took / calls;
    }
    if (answer || out[0] != wanted) printf("unexpected answer %llu %llu\n", (unsigned long long)answer, (unsigned long long)out[0]);
    printf("%-52s %6u nodes %12.2f us\n", what, 1u << t->facts, best * 1e6);
    return best;
}

static void compare(unsigned usable) {
    task alone = turns(usable, usable), all = turns(usable, 64);
    uint64_t cost = usable * (usable + 1) / 2;
    char what[64];
    snprintf(what, sizeof what, "%u steps alone", usable);
    double least = run(what, &alone, usable, cost);
    snprintf(what, sizeof what, "64 steps, %u of them barred", 64 - usable);
    double barred = run(what, &all, usable, cost);
    double every = run("64 steps, none of them barred", &all, 64, cost);
    printf("%-52s barred %.2f times, none barred %.2f times the steps alone\n", "", barred / least, every / least);
}

int main(void) {
    table = malloc(DAGZHIMO_MOST_TABLE);
    compare(4);
    compare(10);
    return 0;
}
