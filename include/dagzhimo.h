/* The planner's functions for C. `rt lib` in crates/planner makes the library; link it:
 *
 *     cc control.c -Iinclude crates/planner/out/libplanner.a
 *
 * docs/JOB.md has the bytes of a job, in both forms of its task section: with forbidden facts, and without.
 *
 * Every function takes bytes and answers a number: 0 for a result, otherwise the number of a refusal, whose place is then in out[0].
 *
 * Who may use which step: beside the job, search and read-through take a list that the caller lends and the rights that the caller holds.
 * needs, needs_len  the list, one byte for each step: the rights that the step needs, one a bit. Its length must be the job's number of steps A, or 14 is
 *                   answered; where A is 0, NULL and 0 are fine.
 * rights            the rights held, one a bit. The caller may use step i exactly if every bit that is set in needs[i] is set in rights.
 * To use every step, lend A zeros; what the rights are then does not matter.
 *
 * Nothing is asked of the bytes: every job, rule, step list and list of rights gets an answer, and what a table or a buffer holds before does not matter.
 * Asked is
 * - that each pointer leads to as many bytes as its length says (where the length is 0 it is not followed, and may be NULL),
 * - that out leads to two numbers of 64 bits and is aligned as such, and
 * - that what is written (table, plan, buffer, out) overlaps nothing else that is lent.
 *
 * Nothing is static, and nothing is allocated: threads may call at once, each with a table, buffers and out of its own. A call needs up to
 * DAGZHIMO_STACK bytes of stack; a thread with less may crash. (93,136 were measured with the longest job, whose formulas are nested as deep as can be.)
 */
#ifndef DAGZHIMO_H
#define DAGZHIMO_H

#include <stddef.h>
#include <stdint.h>

#define DAGZHIMO_STACK 98304

/* The bytes of the table that a node takes, the most nodes that are held, and so the largest table that is of use. */
#define DAGZHIMO_SLOT 160
#define DAGZHIMO_MOST_SLOTS 65536
#define DAGZHIMO_MOST_TABLE (DAGZHIMO_SLOT * DAGZHIMO_MOST_SLOTS)

/* A buffer of so many bytes holds every rule that is written back. */
#define DAGZHIMO_MOST_RULE 384

/* What the functions answer; after each refusal, its place. Refusals 1 to 9 and 14 to 18 leave everything lent but out alone (none answers 16 to 18). */
enum dagzhimo_answer {
    DAGZHIMO_OK = 0,
    DAGZHIMO_BAD_HEAD = 1,          /* under 4 bytes, or a count out of range                     0 */
    DAGZHIMO_BAD_PAIR = 2,          /* pair or section not whole, not adjoining, wrong length,    the pair's number, from 0 */
                                    /* or bytes after the last section */
    DAGZHIMO_BAD_TASK = 3,          /* a bit V or above                                           offset of the number */
    DAGZHIMO_BAD_FORMULA = 4,       /* unknown code, number too large, early end, bytes left      offset of the byte, or of the section's end */
    DAGZHIMO_MANY_PARTS = 5,        /* more than 6 carried parts                                  offset of the seventh */
    DAGZHIMO_BAD_STEP = 6,          /* over 65,535 steps, or a step number A or above             65,535, or the position in the list */
    DAGZHIMO_NOT_APPLICABLE = 7,    /* a step with a needed fact false or a forbidden one true    position in the list */
    DAGZHIMO_GOAL_MISSING = 8,      /* a goal fact is missing at the end                          0 */
    DAGZHIMO_RULE_NOT_MET = 9,      /* a rule is not met                                          the lowest such rule, from 0 */
    DAGZHIMO_TABLE_TOO_SMALL = 10,  /* the nodes reached outnumber the table's slots              0 */
    DAGZHIMO_NO_PLAN_CUT = 11,      /* no plan was found, and a hint cut off some node            0 */
    DAGZHIMO_NO_PLAN = 12,          /* no plan is allowed                                         0 */
    DAGZHIMO_BUFFER_TOO_SHORT = 13, /* the buffer is shorter than the plan or the written rule    the length needed */
    DAGZHIMO_BAD_NEEDS = 14,        /* the list of needed rights has another length than A        its length */
    DAGZHIMO_NO_RIGHT = 15          /* a step that the caller may not use                         position in the list */
};

#ifdef __cplusplus
extern "C" {
#endif

/* Looks for the cheapest allowed plan of a job: of those the shortest, and of those the first by step numbers. An allowed plan has only steps that the
 * caller may use.
 * job, job_len      the job's bytes
 * needs, needs_len, rights: who may use which step, as above
 * table, table_len  room for the search, DAGZHIMO_SLOT bytes for each node; bytes over DAGZHIMO_MOST_TABLE are not used but cleared.
 *                   Every byte of it is 0 after an answer or a refusal 10 to 13.
 * plan, plan_len    where the plan goes, one byte a step, from the start; bytes after it keep their values, and all do if it is refused
 * out               a result: out[0] is the plan's cost, out[1] its number of steps. A refusal: out[0] is its place, out[1] is 0.
 * Gives 0 and the job's plan for this caller, or a refusal, of which the first that applies is given: 1 to 5, 14, 10 to 13.
 *
 * A step that the caller may not use influences no number, no byte of the table and no byte of the plan buffer: in an accepted job its sets and its cost
 * may be any. It is never made, and so it is in rules and hints that name it. Without hints, and where 10 does not come, a caller with more rights never
 * has a dearer plan.
 *
 * How large a table: as many slots as nodes are reached are enough, and often far fewer, since nodes are taken by cost plus an estimate of what is
 * left to pay; nobody knows before. Start with 1,000 slots, and on 10 double, up to DAGZHIMO_MOST_SLOTS; 10 from that table means that the job is too
 * large. The time grows with the square of the nodes (docs/PERFORMANCE.md). Nodes from which the goal facts cannot be built by steps that the
 * caller may use, deleted and forbidden facts overlooked, are not reached: they take no slot, and a hint does not cut them. Where the start is such a node,
 * 12 comes from any table.
 *
 * Hints: without them, 0 is the cheapest allowed plan, and 12 says that none is allowed. With them the search looks at less: the plan is allowed,
 * but may be dearer than the cheapest one, and 11 does not say that none is allowed. To be sure, drop the hints and ask again. */
uint64_t dagzhimo_search(const uint8_t *job, size_t job_len, const uint8_t *needs, size_t needs_len, uint8_t rights, uint8_t *table,
                         size_t table_len, uint8_t *plan, size_t plan_len, uint64_t out[2]);

/* Walks a step list of a job.
 * job, job_len      the job's bytes
 * needs, needs_len, rights: who may use which step, as above
 * steps, steps_len  the step list, one byte a step
 * out               a result: out[0] is the summed cost, out[1] has bit i set exactly if the job has a hint i and the list meets it.
 *                   A refusal: out[0] is its place, out[1] is 0.
 * Gives 0 exactly if the job is accepted, needs_len is A, and the step list is an allowed plan of this caller with at most 65,535 steps; otherwise a
 * refusal, of which the first that applies is given: 1 to 5, 14, 6 for the length, 6, 15 or 7 at each step in turn, 8, 9. */
uint64_t dagzhimo_validate(const uint8_t *job, size_t job_len, const uint8_t *needs, size_t needs_len, uint8_t rights, const uint8_t *steps,
                           size_t steps_len, uint64_t out[2]);

/* Writes a rule in positive normal form: not stands only before fact, step and last, and the same worlds meet it.
 * facts, steps        how many facts and steps there are: 1 to 64 and 0 to 64
 * rule, rule_len      the rule's bytes, 1 to 128
 * buffer, buffer_len  where it is written, from the start; bytes after it keep their values, and all do if it is refused
 * out                 a result: out[0] is the number of bytes written. A refusal: out[0] is its place, counted from the rule's start. out[1] is 0.
 * Gives 0 or a refusal: 1 for a count, 2 for the length (place 0), 4, 5 or 13. */
uint64_t dagzhimo_write_back(uint64_t facts, uint64_t steps, const uint8_t *rule, size_t rule_len, uint8_t *buffer, size_t buffer_len,
                             uint64_t out[2]);

#ifdef __cplusplus
}
#endif

#endif
