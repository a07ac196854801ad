/* Card 3 from C: the truth of each fact code of a rule. Rules have fact codes at every place where one can stand, and all facts are true but one, in
 * the first world and, where a next before the rule leaves it within 128 bytes, in a later one and in the closing one. Expected numbers are written from
 * document 01's meaning of a rule. */
#include "expect.h"

enum { STEPS = 64, TASK_BYTES = TASK + STEPS * OLD_STEP, AT = 12 };

static uint8_t job[AT + TASK_BYTES + 128];

/* A rule as it is written. */
typedef struct {
    uint8_t bytes[128];
    size_t length;
} rule;

static void add(rule *r, uint8_t byte) { r->bytes[r->length++] = byte; }

static rule next(rule r) {
    memmove(r.bytes + 1, r.bytes, r.length++);
    r.bytes[0] = 0x20;
    return r;
}

/* All 64 numbers have their turn; some of them are codes, too: 3, 4, 16, 17 and so on. */
static uint8_t number(unsigned i) { return (uint8_t)((5 * i + 3) % 64); }

/* Every step leads from the facts `before` to the facts `after`, whatever they are, and costs nothing. */
static size_t write_job(uint64_t before, uint64_t after, const rule *r) {
    memset(job, 0, AT + TASK_BYTES);
    job[0] = 64, job[1] = STEPS, job[2] = 1;
    put(job + 4, AT, 2), put(job + 6, TASK_BYTES, 2), put(job + 8, AT + TASK_BYTES, 2), put(job + 10, r->length, 2);
    put(job + AT, before, 8);
    for (int s = 0; s < STEPS; s++) {
        uint8_t *step = job + AT + TASK + s * OLD_STEP;
        put(step + 8, after, 8), put(step + 16, ~after, 8);
    }
    memcpy(job + AT + TASK_BYTES, r->bytes, r->length);
    return AT + TASK_BYTES + r->length;
}

/* Reads a list of so many equal steps through: the rule is met, or it is not and 9 is given. */
static void judge(const char *what, uint64_t before, uint64_t after, rule r, uint8_t step, size_t steps, int met) {
    expect(what, read_through(job, write_job(before, after, &r), (uint8_t[]){step, step}, steps), met ? 0 : 9, 0, 0);
}

/* The rule, which names no step, is judged where `facts` are true; in all other worlds `others` are. */
static void judge_everywhere(const char *what, rule r, uint64_t facts, uint64_t others, int met) {
    for (size_t steps = 0; steps <= 2; steps++) judge(what, facts, others, r, 0, steps, met);
    if (r.length == sizeof r.bytes) return;
    judge(what, others, facts, next(r), 0, 1, met);
    judge(what, others, facts, next(r), 0, 2, met);
    /* the closing world of the empty list */
    judge(what, facts, others, next(r), 0, 0, met);
}

/* One fact code after so many nots. */
static void one_code(unsigned nots) {
    for (unsigned i = 0; i < 64; i += 9) {
        rule r = {{0}, 0};
        while (r.length < nots) add(&r, 0x10);
        add(&r, 0x03), add(&r, number(i));
        uint64_t fact = 1ull << number(i);
        judge_everywhere("one fact code, true", r, fact, ~fact, nots % 2 == 0);
        judge_everywhere("one fact code, false", r, ~fact, fact, nots % 2 == 1);
    }
}

/* The conjunction of so many codes after so many nots: fact codes, but for one that may be a step code (none if it is -1). All and-codes stand first, or
 * each stands before its fact. */
static rule conjunction(unsigned nots, unsigned codes, int ands_first, int step) {
    rule r = {{0}, 0};
    while (r.length < nots) add(&r, 0x10);
    for (unsigned i = 0; ands_first && i + 1 < codes; i++) add(&r, 0x11);
    for (unsigned i = 0; i < codes; i++) {
        if (!ands_first && i + 1 < codes) add(&r, 0x11);
        add(&r, (int)i == step ? 0x04 : 0x03), add(&r, number(i));
    }
    return r;
}

/* Each fact in its turn is the only one that is false. */
static void many_codes(unsigned nots, unsigned codes, int ands_first) {
    rule r = conjunction(nots, codes, ands_first, -1);
    judge_everywhere("all facts true", r, ~0ull, 0, nots % 2 == 0);
    for (unsigned i = 0; i < codes; i++) judge_everywhere("one fact false", r, ~(1ull << number(i)), ~0ull, nots % 2 == 1);
    for (unsigned i = codes; i < 64; i++) judge_everywhere("one fact false that is not named", r, ~(1ull << number(i)), 0, nots % 2 == 0);
}

/* A step code among fact codes goes by the step that was made, and not by the fact of its number; in the first and the closing world none was made. */
static void step_code(unsigned i, int ands_first) {
    rule r = conjunction(0, 42, ands_first, (int)i);
    const uint8_t step = number(i), other = number(i + 1);
    const uint64_t fact = 1ull << step;
    judge("a step code in the first world", ~0ull, ~0ull, r, step, 1, 0);
    judge("a step code in the closing world", ~0ull, ~0ull, next(r), step, 0, 0);
    for (size_t steps = 1; steps <= 2; steps++) {
        judge("the step was made, the fact of its number is false", 0, ~fact, next(r), step, steps, 1);
        judge("another step was made, the fact is false", 0, ~fact, next(r), other, steps, 0);
        judge("another step was made, the fact is true", 0, ~0ull, next(r), other, steps, 0);
    }
}

int main(void) {
    for (unsigned nots = 0; nots <= 126; nots++) one_code(nots);
    for (int ands_first = 0; ands_first <= 1; ands_first++) {
        many_codes(0, 43, ands_first);
        for (unsigned nots = 0; nots <= 3; nots++) many_codes(nots, 42, ands_first);
        for (unsigned i = 0; i < 42; i++) step_code(i, ands_first);
    }
    return finish("facts of a rule");
}
