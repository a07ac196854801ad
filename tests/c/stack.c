/* How much stack a call needs, measured: the calls run on a stack of their own, painted before, and the bytes that they overwrite are counted.
 * The job has the most bytes that a job can have. Its 16 formulas of 128 bytes are nested as deep as can be, 127 operators and a constant in each
 * other, since the reader and the evaluator call themselves at each operand; the rule to write back has 127 nots. */
#include <ucontext.h>

#include "expect.h"

enum { ROOM = 1 << 20, PAINT = 0xa5 };

static uint8_t stack[ROOM] __attribute__((aligned(16))), job[MOST_JOB], table[409 * DAGZHIMO_SLOT], plan[1024], steps[4096], rule[128], buffer[128];
static struct numbers answer;
static ucontext_t caller, callee;

/* The first 9 facts each have a step that adds it and one that deletes it; both forbid fact 9, which is never true. The other steps need and forbid
 * fact 0. Fact 8 is the goal. 8 rules and 8 hints: always not not .. true, which stay open. */
static void make_job(void) {
    size_t sections = 17, at = 4 + 4 * sections, size = TASK + 64 * NEW_STEP;
    memset(job, 0, sizeof job);
    job[0] = job[1] = 64, job[2] = job[3] = 8;
    put(job + 4, at, 2), put(job + 6, size, 2);
    put(job + at + 8, 1ull << 8, 8);
    for (unsigned i = 0; i < 64; i++) {
        uint8_t *step = job + at + TASK + NEW_STEP * i;
        if (i < 18)
            put(step + (i < 9 ? 8 : 16), 1ull << i % 9, 8), put(step + 24, 1ull << 9, 8);
        else
            put(step, 1, 8), put(step + 24, 1, 8);
        put(step + 32, i, 2);
    }
    at += size;
    for (unsigned i = 0; i < 16; i++) {
        put(job + 8 + 4 * i, at, 2), put(job + 10 + 4 * i, 128, 2);
        memset(job + at, 0x10, 128);
        job[at] = 0x22, job[at + 127] = 0x01;
        at += 128;
    }
}

static void call_search(void) { answer = search(job, sizeof job, table, sizeof table, plan, sizeof plan); }

static void call_read_through(void) { answer = read_through(job, sizeof job, steps, sizeof steps); }

static void call_write_back(void) { answer = write_back(3, 3, rule, sizeof rule, buffer, sizeof buffer); }

/* The bytes of stack that a function needs. */
static size_t need(void (*function)(void)) {
    size_t untouched = 0;
    memset(stack, PAINT, sizeof stack);
    getcontext(&callee);
    callee.uc_stack.ss_sp = stack;
    callee.uc_stack.ss_size = sizeof stack;
    callee.uc_link = &caller;
    makecontext(&callee, function, 0);
    swapcontext(&caller, &callee);
    while (untouched < sizeof stack && stack[untouched] == PAINT) untouched++;
    return sizeof stack - untouched;
}

/* The call answers this, and needs no more stack than the header says. */
static void expect_need(const char *what, void (*call)(void), uint64_t number, uint64_t first, uint64_t second) {
    size_t bytes = need(call);
    expect(what, answer, number, first, second);
    printf("stack: %s needs %zu bytes, the header allows %d\n", what, bytes, DAGZHIMO_STACK);
    if (bytes > DAGZHIMO_STACK) failures++;
}

int main(void) {
    make_job();
    /* step 8 adds the goal, and costs 8 */
    expect_need("a search", call_search, 0, 8, 1);

    /* the first 4,095 steps are 0 to 7 in turn, 511 times 0 to 7 and then 0 to 6, and cost 511 times 28 and 21; all hints are met */
    for (size_t i = 0; i < sizeof steps; i++) steps[i] = (uint8_t)(i % 8);
    steps[sizeof steps - 1] = 8;
    expect_need("a read-through", call_read_through, 0, 511 * 28 + 21 + 8, 255);

    memset(rule, 0x10, sizeof rule);
    rule[sizeof rule - 1] = 0x01;
    expect_need("writing back", call_write_back, 0, 1, 0);
    expect_bytes("writing back", buffer, BYTES(0x00));

    return finish("stack");
}
