"""What the planner is called with: a random job of some kind or a wrong one, a caller, tables, buffers and step lists; with the oracle's answer."""

from typing import NamedTuple

import callers
import estimated
import generate
import richer
from estimate import Estimates
from formulas import Refused
from jobs import Job
from pack import formula_bytes
from pairs import SLOT, Answer, TooMany

MOST_PAIRS = 500    # jobs that reach more, with estimates or without, are left out, since the oracle is slow

# the planner uses its memo where the formulas' bytes, times the table's places or the list's steps, come to this number (docs/DECISIONS.md)
MEMO = 4096

# how often each kind of job is made, and by which change a job is made wrong
KINDS = {generate.small_job: 16, richer.richer_job: 43, richer.wide_job: 3, richer.large_job: 5, richer.dense_job: 6, richer.either_form_job: 2,
         estimated.estimated_job: 29, estimated.chain_job: 3}
WRONG = {generate.damaged: 15, generate.other_length: 4, generate.high_bits: 6}


class Given(NamedTuple):
    """What a search or a read-through is given beside its buffers: the bytes of a job, a list of needed rights, and the rights held. And what is known of
    it: its refusal, or else the job as this caller has it, and its answer."""

    data: bytes
    needs: bytes
    rights: int
    refused: Refused = None
    job: Job = None
    answer: Answer = None

    def __str__(self):
        needs = self.needs.hex() if len(self.needs) <= 65 else f"{self.needs[:65].hex()}.. of {len(self.needs)} bytes"
        return f"{self.data.hex()} with the list {needs} and the rights {self.rights:02x}"


def pick(rng, weights):
    return rng.choices(list(weights), weights.values())[0]


def answered(job, unbarred=None):
    """A job's answer, with document 01's own as `before`, and as `unbarred` that of a caller who may use every step. The first is the same one if no pair
    was left aside, since both explorations are then the same; so is the second unless it is given."""
    answer = Answer(job, Estimates(job), MOST_PAIRS)
    answer.before = Answer(job, None, MOST_PAIRS) if answer.aside else answer
    answer.unbarred = unbarred or answer
    return answer


def next_job(rng):
    """A job, accepted or not, and a caller."""
    while True:
        data = pick(rng, KINDS)(rng)
        if rng.random() < 0.05:
            data = generate.many_parts(rng, data)
        if rng.random() < 0.25:
            data = pick(rng, WRONG)(rng, data)
        try:
            job = Job(data)
            answer = answered(job)
            needs, rights = callers.of_job(rng, job, answer)
            own = job.of_caller(needs, rights)
            return Given(data, needs, rights, None, own, answered(own, answer) if own.barred() else answer)
        except Refused as refused:
            return Given(data, *callers.of_refused(rng, data), refused)
        except TooMany:
            continue


def wrong_list(rng, given):
    """The same accepted job with a list that is not as long as there are steps, and its refusal."""
    needs, rights = callers.other_length(rng, len(given.job.steps))
    try:
        given.job.of_caller(needs, rights)
    except Refused as refused:
        return Given(given.data, needs, rights, refused)
    raise AssertionError(f"the oracle takes a list of {len(needs)} bytes for {given}")


def rooms(rng, answer):
    """Bytes of table and plan buffer for two searches: near what is needed, and any."""
    reached, steps = (answer.reached, len(answer.path)) if answer else (1, 1)
    near = rng.choice([1, reached // 2, reached - 1, reached, reached, reached + 1])
    for places in (max(0, near), rng.choice([0, 2, 5, 12, 64, 200, 512, 512])):
        yield places * SLOT + rng.randrange(SLOT), max(0, rng.choice([0, steps - 1, steps, steps, steps + 1, steps + 5, 40]))


def step_lists(rng, given):
    """Step lists to read through: any numbers, the plan, applicable steps, steps that are applicable where forbidden facts are overlooked, and a list so
    long that the memo is used. For a caller with barred steps also the plan of one without, applicable steps and any numbers, barred or not."""
    job = given.job
    numbers = given.data[1] + 2 if job else 5
    yield bytes(rng.randrange(numbers) for _ in range(rng.randint(0, 4)))
    if not job:
        return
    yield bytes(given.answer.path)
    yield generate.walk_to_goal(rng, job, rng.randint(0, 12), 0)
    yield generate.walk_to_goal(rng, job.forbidding_nothing(), rng.randint(0, 12), 0)
    size = formula_bytes(given.data)
    if size >= 20:
        yield generate.walk_to_goal(rng, job, MEMO // size + rng.randint(1, 60), MEMO // size + 1)
    if job.barred():
        yield bytes(given.answer.unbarred.path)
        yield generate.walk_to_goal(rng, job.using(range(len(job.steps))), rng.randint(1, 12), 0)
        any_numbers = [*job.barred(), rng.choice(job.usable or job.barred()), len(job.steps), 255]
        yield bytes(rng.choice(any_numbers) for _ in range(rng.randint(1, 4)))
