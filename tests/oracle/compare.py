"""Compares the planner's static library with document 01 and the cards on random jobs: numbers, places, and every byte of the lent slices.

    compare.py DRIVER [SEED [JOBS]]

DRIVER is driver.c, compiled with the library. The seed is fixed unless one is given. It fails at the first difference and prints the job, or where the
oracle itself is not as cards 2 and 4 say; and it fails if something that the jobs are to try happened too seldom.

By card 4 the library's answers are also compared with each other: on twins, which are two jobs that differ in the sets and costs of barred steps alone, and
by callers with more and more rights."""

import random
import sys

import callers
import events
import expect
import generate
import self_checks
from driver import BadCall, Driver
from enumeration import Enumeration
from formulas import MOST_BYTES, Refused, within
from given import MEMO, MOST_PAIRS, next_job, rooms, step_lists, wrong_list
from pack import formula_bytes
from pairs import SLOT, slots
from tally import Tally
from written import check_written

# table and plan buffer for callers with more and more rights: there 10 comes seldom, and 13 never
LARGE = bytes(600 * SLOT), bytes(600)


class Comparison:
    def __init__(self, path, seed):
        self.driver, self.seed, self.rng, self.at, self.tally = Driver(path), seed, random.Random(seed), 0, Tally()

    def fail(self, message):
        sys.exit(f"seed {self.seed}, job {self.at}: {message}")

    def call(self, called, function, *arguments):
        try:
            return function(*arguments)
        except BadCall as bad:
            self.fail(f"{called}: {bad}")

    # ---- one job

    def one_job(self):
        rng = self.rng
        given = next_job(rng)
        twin, lists = None, None
        if given.refused:
            self.tally.count_true("jobs refused with", events.of_refused(given.data, given.refused, given.needs))
        else:
            self.look_at(given)
            twin = given._replace(data=callers.with_other_barred(rng, given.data, given.job)) if given.job.barred() else None
            lists = self.enumeration(given)
        for room in rooms(rng, given.answer):
            self.search(given, twin, lists, room)
        for steps in step_lists(rng, given):
            self.read_through(given, twin, steps)
        if given.job:
            self.growing_rights(given)
            if rng.random() < 0.12:
                self.with_wrong_list(given)
        self.write_back()

    def look_at(self, given):
        """Checks the oracle on an accepted job, and counts what is to be seen in it."""
        data, needs, rights, _, job, answer = given
        wrong = self_checks.wrong(job, answer)
        if wrong:
            self.fail(f"the oracle on {given}: {wrong}")
        self.tally.count("jobs with the operator", *{f[0] for r in job.rules + job.hints for f in within(r.formula)})
        self.tally.count("jobs with", *answer.events)
        self.tally.count_true("jobs with", events.of_accepted(data, job, answer))
        self.tally.count_true("jobs with", events.of_fact_codes(data, job, answer, MOST_PAIRS))
        self.tally.count_true("jobs with", events.of_forbidden(job, answer, MOST_PAIRS))
        self.tally.count_true("jobs with", events.of_estimates(job, answer, MOST_PAIRS))
        self.tally.count_true("jobs with", events.of_rights(job, needs, rights, answer, MOST_PAIRS))

    def with_wrong_list(self, given):
        """The calls with a list that is not as long as there are steps."""
        wrong, steps = wrong_list(self.rng, given), len(given.job.steps)
        self.search(wrong, None, None, next(rooms(self.rng, given.answer)))
        for numbers in bytes(given.answer.path), self.rng.randbytes(self.rng.randint(0, 4)):
            self.read_through(wrong, None, numbers)
        self.tally.count_true("calls with", {
            "a list one too short": len(wrong.needs) == steps - 1,
            "a list one too long": len(wrong.needs) == steps + 1,
            "an empty list for some steps": not wrong.needs,
            "a list for no steps": not steps,
            "a list that is right in its lowest 8 bits": len(wrong.needs) % 256 == steps,
        })

    # ---- search

    def search(self, given, twin, lists, room):
        """A search, compared with what is wanted, and with the same search of the twin, if there is one."""
        answer, table, plan = given.answer, self.rng.randbytes(room[0]), self.rng.randbytes(room[1])
        called = f"search of {given} in a table of {len(table)} bytes, plan buffer {plan.hex()}"

        def shown(numbers, after, plan):
            state = "as it was" if after == table else "not cleared" if any(after) else "cleared"
            return f"{numbers}, plan buffer {plan.hex()}, table {state}"

        numbers, *lent = self.call(called, self.driver.search, *given[:3], table, plan)
        ends = expect.search(given.refused, answer, table, plan)
        if (numbers, *lent) not in ends:
            self.fail(f"{called}: got {shown(numbers, *lent)}; wanted {' or '.join(shown(*end) for end in ends)}")
        self.tally.count("search", numbers[0])
        if given.refused:
            return
        if twin:
            other = self.call(f"twin of the {called}", self.driver.search, *twin[:3], table, plan)
            if other != (numbers, *lent):
                self.fail(f"{called}: got {shown(numbers, *lent)}, but {shown(*other)} where barred steps are others: {twin.data.hex()}")
            self.count_twin(given, twin, numbers, table, plan)
        self.tally.count_true("calls with", {
            "search with a memo": formula_bytes(given.data) * slots(table) >= MEMO,
            "10 where an answer exists": numbers[0] == 10 and answer.number == 0,
            "over 64 slots": numbers[0] != 10 and answer.needed > 64,
            "as many slots as pairs": slots(table) == answer.reached,
            "one slot fewer": slots(table) == answer.reached - 1,
            "slots for the pairs with an estimate alone": answer.reached <= slots(table) < answer.before.reached,
            "slots for the pairs of usable steps alone": answer.reached <= slots(table) < answer.unbarred.reached,
            "no slot and no pair": slots(table) == answer.reached == 0 < answer.before.reached,
            "no slot and no pair by rights": slots(table) == answer.reached == 0 < answer.unbarred.reached,
            "a buffer as long as the plan": numbers[0] == 0 and len(plan) == len(answer.path),
            "one byte shorter": numbers[0] == 13 and len(plan) == len(answer.path) - 1,
        })
        if lists and numbers[0] != 10:
            self.compare_enumerated(called, numbers, lent[1][:numbers[2]], lists)

    def enumeration(self, given):
        """All short lists of the job, if they decide what a search must give."""
        if given.job.hints and not all(s.cost for s in given.job.usable_steps()):
            return None
        lists = Enumeration(given.job, formula_bytes(given.data))
        return lists if lists.decides() else None

    def compare_enumerated(self, called, numbers, steps, lists):
        why = lists.contradicts(numbers, steps)
        if why:
            self.fail(f"{called}: got {numbers}, steps {list(steps)}, but of the lists of up to {lists.length} steps {why}")
        if lists.best:
            self.tally.count_true("calls with", {
                "enumeration": True,
                "enumeration and hints": lists.job.hints,
                "enumeration and a barred step": lists.job.barred(),
                "enumeration of 4 steps or more": numbers[0] == 0 and lists.best[1] >= 4,
                "enumeration and 13": numbers[0] == 13,
            })

    def count_twin(self, given, twin, numbers, table, plan):
        """The two must also be such that a caller who may use every step sees a difference; else they would compare little."""
        first, second = (self.call("twins", self.driver.search, data, given.needs, callers.EVERY, table, plan) for data in (given.data, twin.data))
        self.tally.count("searches of twins", numbers[0])
        self.tally.count_true("searches of twins", {"a difference with all rights": first != second})

    def growing_rights(self, given):
        """Without hints a plan is never dearer, and never missing, for a caller with more rights. A search that ends in 10 says nothing."""
        data, count = callers.without_hints(given.data), len(given.job.steps)
        needs, fewer, before = callers.few_each(self.rng, count), None, None
        for rights in callers.growing(self.rng) if count else []:
            called = f"search of {data.hex()} with the list {needs.hex()} and the rights {rights:02x}"
            number, cost, _ = self.call(called, self.driver.search, data, needs, rights, *LARGE)[0]
            if number == 10:
                continue
            # (12, 0), no plan, is above every plan
            if number not in (0, 12) or before and (number, cost) > before:
                self.fail(f"{called}: got {number, cost}" + (f", and {before} with the rights {fewer:02x}" if before else ""))
            self.tally.count_true("growing rights", {
                "compared": before,
                "with a plan": before and before[0] == 0,
                "a first plan": before and before[0] > number,
                "a cheaper plan": before and before[0] == number and before[1] > cost,
                **{f"right {bit} decides": before and before > (number, cost) and rights - fewer == 1 << bit for bit in range(8)},
            })
            fewer, before = rights, (number, cost)

    # ---- read-through

    def read_through(self, given, twin, steps):
        """A read-through, compared with what is wanted, and with the same read-through of the twin, if there is one."""
        job, called = given.job, f"read-through of {list(steps)} in {given}"
        numbers = self.call(called, self.driver.read_through, *given[:3], steps)
        wanted = expect.read_through(given.refused, job, steps)
        if numbers != wanted:
            self.fail(f"{called}: got {numbers}, wanted {wanted}")
        self.tally.count("read-through", numbers[0])
        if twin:
            other = self.call(f"twin of the {called}", self.driver.read_through, *twin[:3], steps)
            if other != numbers:
                self.fail(f"{called}: got {numbers}, but {other} where barred steps are others: {twin.data.hex()}")
            self.tally.count("read-throughs of twins", numbers[0])
        if job:
            self.tally.count_true("calls with", events.of_list_by_rights(job, numbers, steps))
            self.tally.count_true("calls with", {
                "read-through with a memo": formula_bytes(given.data) * len(steps) >= MEMO,
                "7 for a forbidden fact alone": events.refused_by_forbidden(job, numbers, steps),
            })

    # ---- writing back

    def write_back(self):
        rng = self.rng
        facts, steps, rule = generate.rule_to_write(rng)
        try:
            check_written(rng, expect.read_rule(facts, steps, rule), facts, steps)
        except Refused:
            pass
        needed = expect.write_back(facts, steps, rule, b"")[0][1]
        buffer = rng.randbytes(max(0, rng.choice([0, needed - 1, needed, needed, needed + 1, rng.randint(0, 300)])))
        called = f"writing back {rule.hex()} for {facts} facts and {steps} steps into {buffer.hex()}"
        numbers, written = self.call(called, self.driver.write_back, facts, steps, rule, buffer)
        wanted = expect.write_back(facts, steps, rule, buffer)
        if (numbers, written) != wanted:
            self.fail(f"{called}: got {numbers} {written.hex()}, wanted {wanted[0]} {wanted[1].hex()}")
        self.tally.count("write-back", numbers[0])
        self.tally.count_true("calls with", {"over 128 bytes written": numbers[0] == 0 and numbers[1] > MOST_BYTES})


def main():
    seed = int(sys.argv[2]) if len(sys.argv) > 2 else 20261115
    jobs = int(sys.argv[3]) if len(sys.argv) > 3 else 4000
    wrong = self_checks.wrong_example()
    if wrong:
        sys.exit(f"the oracle: {wrong}")
    comparison = Comparison(sys.argv[1], seed)
    for comparison.at in range(jobs):
        comparison.one_job()
    seldom = comparison.tally.seldom(jobs)
    if seldom:
        sys.exit(f"seed {seed}: too seldom: " + "; ".join(seldom))
    print(f"{jobs} random jobs, seed {seed}: all as document 01 and the cards say; {comparison.tally}")


if __name__ == "__main__":
    main()
