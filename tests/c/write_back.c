/* Writes rules back from C, and compares numbers and buffer with what document 01 says of them. */
#include "expect.h"

static uint8_t buffer[DAGZHIMO_MOST_RULE];

/* Rules over 3 facts and 3 steps; the buffer has the written rule and else what it had. */
static void expect_written(const char *what, const uint8_t *rule, size_t length, const uint8_t *written, size_t count) {
    uint8_t wanted[sizeof buffer];
    memset(buffer, 9, sizeof buffer), memset(wanted, 9, sizeof wanted);
    memcpy(wanted, written, count);
    expect(what, write_back(3, 3, rule, length, buffer, sizeof buffer), 0, count, 0);
    expect_bytes(what, buffer, wanted, sizeof buffer);
}

static void expect_refused(const char *what, uint64_t facts, uint64_t steps, const uint8_t *rule, size_t length, uint64_t number, uint64_t place) {
    memset(buffer, 9, sizeof buffer);
    expect(what, write_back(facts, steps, rule, length, buffer, sizeof buffer), number, place, 0);
    expect_all(what, buffer, sizeof buffer, 9);
}

static void written(void) {
    expect_written("not next", BYTES(0x10, 0x20, 0x03, 0x00), BYTES(0x12, 0x02, 0x20, 0x10, 0x03, 0x00));
    expect_written("next", BYTES(0x20, 0x03, 0x00), BYTES(0x20, 0x03, 0x00));
    expect_written("not not", BYTES(0x10, 0x10, 0x04, 0x02), BYTES(0x04, 0x02));
    expect_written("not true", BYTES(0x10, 0x01), BYTES(0x00));
    expect_written("not false", BYTES(0x10, 0x00), BYTES(0x01));
    expect_written("not last", BYTES(0x10, 0x02), BYTES(0x10, 0x02));
    expect_written("not and", BYTES(0x10, 0x11, 0x03, 0x00, 0x10, 0x04, 0x01), BYTES(0x12, 0x10, 0x03, 0x00, 0x04, 0x01));
    expect_written("not or", BYTES(0x10, 0x12, 0x03, 0x00, 0x02), BYTES(0x11, 0x10, 0x03, 0x00, 0x10, 0x02));
    expect_written("not eventually", BYTES(0x10, 0x21, 0x03, 0x01), BYTES(0x22, 0x10, 0x03, 0x01));
    expect_written("not always", BYTES(0x10, 0x22, 0x03, 0x01), BYTES(0x21, 0x10, 0x03, 0x01));
    expect_written("not until", BYTES(0x10, 0x23, 0x03, 0x00, 0x03, 0x01), BYTES(0x24, 0x10, 0x03, 0x00, 0x10, 0x03, 0x01));
    expect_written("not release", BYTES(0x10, 0x24, 0x03, 0x00, 0x03, 0x01), BYTES(0x23, 0x10, 0x03, 0x00, 0x10, 0x03, 0x01));
    expect_written("no other change", BYTES(0x11, 0x01, 0x12, 0x00, 0x01), BYTES(0x11, 0x01, 0x12, 0x00, 0x01));
}

static void lengths(void) {
    const uint8_t rule[4] = {0x10, 0x20, 0x03, 0x00}, full[8] = {0x12, 0x02, 0x20, 0x10, 0x03, 0x00, 9, 9};
    memset(buffer, 9, sizeof buffer);
    expect("buffer of 5", write_back(3, 3, rule, 4, buffer, 5), 13, 6, 0);
    expect_all("buffer of 5", buffer, sizeof buffer, 9);
    expect("buffer of 6", write_back(3, 3, rule, 4, buffer, 6), 0, 6, 0);
    expect_bytes("buffer of 6", buffer, full, sizeof full);
    expect("no buffer at all", write_back(3, 3, rule, 4, NULL, 0), 13, 6, 0);

    /* not of six nexts and a conjunction of 61 times last: each next becomes three bytes, and each last two */
    uint8_t longest[128], wanted[6 * 3 + 60 + 2 * 61];
    longest[0] = 0x10;
    memset(longest + 1, 0x20, 6), memset(longest + 7, 0x11, 60), memset(longest + 67, 0x02, 61);
    for (int i = 0; i < 6; i++) memcpy(wanted + 3 * i, BYTES(0x12, 0x02, 0x20));
    memset(wanted + 18, 0x12, 60);
    for (int i = 0; i < 61; i++) memcpy(wanted + 78 + 2 * i, BYTES(0x10, 0x02));
    expect_written("a rule of 128 bytes, written in 200", longest, sizeof longest, wanted, sizeof wanted);
}

static void refusals(void) {
    const uint64_t wrong[] = {65, 255, 256, (1ull << 32) + 3, UINT64_MAX};
    expect_refused("no facts", 0, 3, BYTES(0x01), 1, 0);
    for (size_t i = 0; i < sizeof wrong / sizeof *wrong; i++) {
        expect_refused("too many facts", wrong[i], 3, BYTES(0x01), 1, 0);
        expect_refused("too many steps", 3, wrong[i], BYTES(0x01), 1, 0);
    }
    expect_refused("too many facts before no rule", 65, 3, NULL, 0, 1, 0);
    expect_refused("no rule at all", 3, 3, NULL, 0, 2, 0);

    uint8_t nots[129];
    memset(nots, 0x10, sizeof nots);
    nots[127] = nots[128] = 0x01;
    expect_refused("129 bytes", 3, 3, nots, 129, 2, 0);
    expect_written("128 bytes", nots, 128, BYTES(0x00));

    expect_refused("unknown code", 3, 3, BYTES(0x10, 0x05), 4, 1);
    expect_refused("fact 3 of 3", 3, 3, BYTES(0x21, 0x03, 0x03), 4, 2);
    expect_refused("step 0 of none", 3, 0, BYTES(0x04, 0x00), 4, 1);
    expect_refused("early end", 3, 3, BYTES(0x11, 0x01), 4, 2);
    expect_refused("bytes left", 3, 3, BYTES(0x01, 0x01), 4, 1);
    expect_refused("seven parts", 3, 3, BYTES(0x20, 0x20, 0x20, 0x20, 0x20, 0x20, 0x20, 0x03, 0x00), 5, 7);
    expect_refused("seven parts and bytes left", 3, 3, BYTES(0x20, 0x20, 0x20, 0x20, 0x20, 0x20, 0x20, 0x01, 0x01), 4, 8);
    expect("nothing at all", write_back(3, 3, NULL, 0, NULL, 0), 2, 0, 0);
    expect("64 facts and 64 steps", write_back(64, 64, BYTES(0x11, 0x03, 63, 0x04, 63), buffer, 5), 0, 5, 0);
}

int main(void) {
    written();
    lengths();
    refusals();
    return finish("writing back");
}
