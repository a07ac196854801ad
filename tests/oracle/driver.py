"""Calls the planner's static library through the program that driver.c is compiled to."""

import struct
import subprocess


class BadCall(Exception):
    """The driver ended inside a call, or bytes that are only read were written to."""


class Driver:
    def __init__(self, path):
        self.process = subprocess.Popen([path], stdin=subprocess.PIPE, stdout=subprocess.PIPE)

    def search(self, job, needs, rights, table, plan):
        """The numbers (what it answers, out[0], out[1]), and table and plan buffer afterwards."""
        numbers, job_after, needs_after, *lent = self.call(b"s", rights, 0, job, needs, table, plan)
        if (job_after, needs_after) != (job, needs):
            raise BadCall("the job or the list of needed rights was written to")
        return (numbers, *lent)

    def read_through(self, job, needs, rights, steps):
        """The numbers."""
        numbers, *lent = self.call(b"v", rights, 0, job, needs, b"", steps)
        if lent != [job, needs, b"", steps]:
            raise BadCall("the job, the list of needed rights or the step list was written to")
        return numbers

    def write_back(self, facts, steps, rule, buffer):
        """The numbers, and the buffer afterwards."""
        numbers, rule_after, _, _, written = self.call(b"w", facts, steps, rule, b"", b"", buffer)
        if rule_after != rule:
            raise BadCall("the rule was written to")
        return numbers, written

    def call(self, kind, first, second, *slices):
        lengths = [len(s) for s in slices]
        try:
            self.process.stdin.write(kind + struct.pack("<2Q4I", first, second, *lengths) + b"".join(slices))
            self.process.stdin.flush()
            reply = self.process.stdout.read(24 + sum(lengths))
        except BrokenPipeError:
            reply = b""
        if len(reply) < 24 + sum(lengths):
            ended = self.process.wait()
            raise BadCall(f"the driver ended with {f'signal {-ended}' if ended < 0 else f'exit status {ended}'}")
        found, at = [], 24
        for length in lengths:
            found.append(reply[at:at + length])
            at += length
        return (struct.unpack("<3Q", reply[:24]), *found)
