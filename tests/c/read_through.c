/* Calls the read-through from C on small jobs, and compares numbers and places with what document 01 says of them. */
#include "expect.h"

int main(void) {
    static uint8_t job[P_ROOM], many[65536];

    size_t n = job_p(job, GOAL_SCANNED, PLAIN, NULL, 0);
    expect("plan", read_through(job, n, BYTES(0, 1, 2)), 0, 16, 0);
    expect("longer plan", read_through(job, n, BYTES(1, 1, 0, 2, 0)), 0, 23, 0);
    expect("not applicable", read_through(job, n, BYTES(0, 2)), 7, 1, 0);
    expect("no such step", read_through(job, n, BYTES(0, 3)), 6, 1, 0);
    expect("no such step before one that is not applicable", read_through(job, n, BYTES(255, 2)), 6, 0, 0);
    expect("goal missing", read_through(job, n, BYTES(0, 1)), 8, 0, 0);
    expect("over 65,535 steps", read_through(job, n, many, 65536), 6, 65535, 0);
    expect("65,535 steps, goal missing", read_through(job, n, many, 65535), 8, 0, 0);
    many[65533] = 1, many[65534] = 2;
    expect("65,535 steps, the last two lamp and pass", read_through(job, n, many, 65535), 0, 65533 * 5 + 2 + 9, 0);
    expect("empty job", read_through(job, 0, BYTES(0, 1, 2)), 1, 0, 0);
    expect("cut off", read_through(job, n - 1, BYTES(0, 1, 2)), 2, 0, 0);
    job[8] = 8;
    expect("fact 3 of 3", read_through(job, n, BYTES(0, 1, 2)), 3, 8, 0);

    n = job_p(job, GOAL_SCANNED, AS_RULE, BYTES(0x23, 0x10, 0x04, 0x00, 0x04, 0x01));
    expect("rule not met", read_through(job, n, BYTES(0, 1, 2)), 9, 0, 0);
    expect("rule met", read_through(job, n, BYTES(1, 0, 2)), 0, 16, 0);
    job[107] = 0x30;
    expect("unknown code", read_through(job, n, BYTES(0, 1, 2)), 4, 107, 0);
    n = job_p(job, GOAL_SCANNED, AS_RULE, BYTES(0x20, 0x20, 0x20, 0x20, 0x20, 0x20, 0x20, 0x03, 0x00));
    expect("seven parts", read_through(job, n, BYTES(0, 1, 2)), 5, 113, 0);
    n = job_p(job, GOAL_SCANNED, AS_RULE, BYTES(0x20, 0x20, 0x20, 0x20, 0x20, 0x20, 0x03, 0x00));
    expect("six parts, not met", read_through(job, n, BYTES(0, 1, 2)), 9, 0, 0);
    expect("six parts, met", read_through(job, n, BYTES(0, 1, 1, 1, 2)), 0, 20, 0);
    n = job_p(job, GOAL_SCANNED, AS_HINT, BYTES(0x21, 0x04, 0x00));
    expect("hint met", read_through(job, n, BYTES(0, 1, 2)), 0, 16, 1);
    n = job_p(job, GOAL_SCANNED, AS_HINT, BYTES(0x22, 0x10, 0x04, 0x01));
    expect("hint not met", read_through(job, n, BYTES(0, 1, 2)), 0, 16, 0);

    expect("no job at all", read_through(NULL, 0, BYTES(0, 1, 2)), 1, 0, 0);
    n = job_p(job, GOAL_SCANNED, PLAIN, NULL, 0);
    expect("no list at all, goal missing", read_through(job, n, NULL, 0), 8, 0, 0);
    n = job_p(job, GOAL_NONE, PLAIN, NULL, 0);
    expect("no list at all", read_through(job, n, NULL, 0), 0, 0, 0);

    return finish("read-through");
}
