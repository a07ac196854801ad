/* Serves the planner's functions to another program over standard input and output, so that it can compare answers and lent bytes.
 *
 * A request is a byte ('s' search, 'v' read-through, 'w' writing back), two 64-bit numbers (facts and steps for writing back, else the caller's rights and
 * one that is not used), four 32-bit lengths and four slices of these lengths:
 *     s  job, needed rights, table, plan buffer      v  job, needed rights, nothing, step list      w  rule, nothing, nothing, buffer
 * The reply is three 64-bit numbers (what the function answers, out[0], out[1]) and the four slices as they are afterwards. Numbers are little-endian.
 *
 * Each slice ends where its pages end, with a page after them and one before them that cannot be touched, so that the first byte that a function
 * reads or writes after a slice ends this program. The bytes just before a slice are looked at after the call. */
#include <stdio.h>
#include <stdlib.h>
#include <string.h>
#include <sys/mman.h>
#include <unistd.h>

#include "dagzhimo.h"

enum { SLICES = 4, BEFORE = 64, PAINT = 0xee };

/* Pages that can be used, between two that cannot; they are kept from call to call and only replaced by more. */
struct room {
    uint8_t *pages;
    size_t size;
};

static void die(const char *why) {
    fprintf(stderr, "driver: %s\n", why);
    exit(2);
}

/* The last so many bytes of a room, with painted bytes before them. */
static uint8_t *lend(struct room *room, size_t length) {
    size_t page = (size_t)sysconf(_SC_PAGESIZE);
    if (room->size < length + BEFORE) {
        if (room->size) munmap(room->pages - page, room->size + 2 * page);
        room->size = (2 * length + BEFORE + page - 1) / page * page;
        uint8_t *all = mmap(NULL, room->size + 2 * page, PROT_NONE, MAP_PRIVATE | MAP_ANONYMOUS, -1, 0);
        if (all == MAP_FAILED || mprotect(all + page, room->size, PROT_READ | PROT_WRITE)) die("no memory");
        room->pages = all + page;
    }
    uint8_t *slice = room->pages + room->size - length;
    memset(slice - BEFORE, PAINT, BEFORE);
    return slice;
}

static void look_before(const uint8_t *slice) {
    for (const uint8_t *at = slice - BEFORE; at < slice; at++)
        if (*at != PAINT) die("a byte before a slice was written");
}

static void take(void *bytes, size_t length) {
    if (fread(bytes, 1, length, stdin) != length) die("a request was cut off");
}

int main(void) {
    static struct room rooms[SLICES + 1];
    int kind;
    while ((kind = getchar()) != EOF) {
        uint64_t given[2], number;
        uint32_t length[SLICES];
        uint8_t *slice[SLICES];
        take(given, sizeof given);
        take(length, sizeof length);
        for (int i = 0; i < SLICES; i++) {
            slice[i] = lend(&rooms[i], length[i]);
            take(slice[i], length[i]);
        }
        /* the room ends on a page, so out is aligned */
        uint64_t *out = (uint64_t *)lend(&rooms[SLICES], 2 * sizeof *out);
        out[0] = out[1] = 0x7777777777777777;
        if (kind == 's')
            number = dagzhimo_search(slice[0], length[0], slice[1], length[1], (uint8_t)given[0], slice[2], length[2], slice[3], length[3], out);
        else if (kind == 'v')
            number = dagzhimo_validate(slice[0], length[0], slice[1], length[1], (uint8_t)given[0], slice[3], length[3], out);
        else if (kind == 'w')
            number = dagzhimo_write_back(given[0], given[1], slice[0], length[0], slice[3], length[3], out);
        else
            die("unknown request");
        fwrite(&number, sizeof number, 1, stdout);
        fwrite(out, sizeof *out, 2, stdout);
        for (int i = 0; i < SLICES; i++) {
            look_before(slice[i]);
            fwrite(slice[i], 1, length[i], stdout);
        }
        look_before((uint8_t *)out);
        fflush(stdout);
    }
    return 0;
}
