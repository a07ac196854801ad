/* Threads that search, read through and write back at once, each with its own job and its own bytes: every one must get its own answers each time.
 * Their stacks have what the header asks for, and 16 KB for the thread itself. */
#include <pthread.h>
#include <stdlib.h>

#include "expect.h"

enum { THREADS = 4, ROUNDS = 1000, STACK = (DAGZHIMO_STACK + 4095) / 4096 * 4096 + 16384, LONG = 3000 };

/* One thread's case of document 01, and the bytes it lends. In the long list sand and pass stand at the ends and lamps between. */
struct mine {
    const char *what;
    enum as as;
    uint8_t formula[8];
    size_t length;
    struct numbers searched, walked;
    uint8_t steps[5];
    struct numbers written;
    uint8_t rewritten[8];
    uint8_t job[P_ROOM], table[131072], plan[8], list[LONG], buffer[8];
};

/* lamps cost 2, so the long list costs 5, 2,998 times 2, and 9 */
#define WALK (5 + 2 * (LONG - 2) + 9)

static struct mine all[THREADS] = {
    {.what = "thread with lamp before sand", .as = AS_RULE, .formula = {0x23, 0x10, 0x04, 0x00, 0x04, 0x01}, .length = 6,
     .searched = {0, 16, 3}, .steps = {1, 0, 2}, .walked = {9, 0, 0}, .written = {0, 6, 0}, .rewritten = {0x23, 0x10, 0x04, 0x00, 0x04, 0x01}},
    {.what = "thread with hint never lamp", .as = AS_HINT, .formula = {0x22, 0x10, 0x04, 0x01}, .length = 4,
     .searched = {11, 0, 0}, .walked = {0, WALK, 0}, .written = {0, 4, 0}, .rewritten = {0x22, 0x10, 0x04, 0x01}},
    {.what = "thread with six times next", .as = AS_RULE, .formula = {0x20, 0x20, 0x20, 0x20, 0x20, 0x20, 0x03, 0x00}, .length = 8,
     .searched = {0, 20, 5}, .steps = {0, 1, 1, 1, 2}, .walked = {0, WALK, 0}, .written = {0, 8, 0},
     .rewritten = {0x20, 0x20, 0x20, 0x20, 0x20, 0x20, 0x03, 0x00}},
    {.what = "thread with hint not never sand", .as = AS_HINT, .formula = {0x10, 0x22, 0x10, 0x04, 0x00}, .length = 5,
     .searched = {0, 16, 3}, .steps = {0, 1, 2}, .walked = {0, WALK, 1}, .written = {0, 3, 0}, .rewritten = {0x21, 0x04, 0x00}},
};

static pthread_barrier_t start;

static void *run(void *given) {
    struct mine *m = given;
    size_t n = job_p(m->job, GOAL_SCANNED, m->as, m->formula, m->length);
    memset(m->list, 1, sizeof m->list);
    m->list[0] = 0, m->list[LONG - 1] = 2;
    pthread_barrier_wait(&start);
    for (int i = 0; i < ROUNDS && !failures; i++) {
        size_t count = m->searched.number ? 0 : m->searched.second;
        memset(m->table, 7, sizeof m->table), memset(m->plan, 9, sizeof m->plan), memset(m->buffer, 9, sizeof m->buffer);
        expect(m->what, search(m->job, n, m->table, sizeof m->table, m->plan, sizeof m->plan), m->searched.number, m->searched.first, count);
        expect_bytes(m->what, m->plan, m->steps, count);
        expect_all(m->what, m->plan + count, sizeof m->plan - count, 9);
        expect_all(m->what, m->table, sizeof m->table, 0);
        expect(m->what, read_through(m->job, n, m->list, sizeof m->list), m->walked.number, m->walked.first, m->walked.second);
        /* a short call, so it is made often */
        for (int j = 0; j < 100; j++) {
            expect(m->what, write_back(3, 3, m->formula, m->length, m->buffer, sizeof m->buffer), m->written.number, m->written.first, 0);
            expect_bytes(m->what, m->buffer, m->rewritten, m->written.first);
        }
    }
    return NULL;
}

static void must(const char *what, int error) {
    if (error) printf("threads: %s: %s\n", what, strerror(error)), exit(1);
}

int main(void) {
    pthread_t threads[THREADS];
    pthread_attr_t attributes;
    must("barrier", pthread_barrier_init(&start, NULL, THREADS));
    must("attributes", pthread_attr_init(&attributes));
    must("stack size", pthread_attr_setstacksize(&attributes, STACK));
    for (int i = 0; i < THREADS; i++) must("create", pthread_create(&threads[i], &attributes, run, &all[i]));
    for (int i = 0; i < THREADS; i++) must("join", pthread_join(threads[i], NULL));
    return finish("threads");
}
