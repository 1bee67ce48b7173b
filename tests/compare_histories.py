"""tests/compare_histories.py PROGRAM [REFERENCE [COUNT [FIRST [MOST [LONG]]]]]: compares the reports of a program with
recorded ones, and with those of a reference program.

PROGRAM is xds_replay, which is called with the word `run`. It plays the 400 sessions of the corpus. REFERENCE is the
folder of a reference, which plays sessions and makes random ones: COUNT random sessions (10,000 if none is given) of at
most MOST lines (60 if none is given), those from number FIRST on, the first LONG (300 if none is given) of those between
that have more lines, up to 300, each eighth number once more with some damage, and the worked sessions beside the
reference, are played by both. Each report is the same byte for byte, or the first fault and its line are. A worked session
with a report of its own is compared with that report too. Up to four processes make and play the sessions.

Recorded reports, and those of the reference, are made in the order of the session's lines. So PROGRAM is given the session
gated into that order (tests/gating.py), where it isn't one that is refused.
"""

import itertools
import multiprocessing
import os
import pathlib
import random
import subprocess
import sys

HERE = pathlib.Path(__file__).resolve().parent
sys.path[:0] = [str(HERE), str(HERE.parent / "tools")]
import corpus  # noqa: E402
import mutation  # noqa: E402
from gating import gated  # noqa: E402
from reference import Reference  # noqa: E402

COUNT, FIRST, MOST, LONG = 10_000, 1, 60, 300
MOST_OF_LONG, EACH_DAMAGED, BATCH = 300, 8, 400
FAULT = "session line"


def chosen(numbered, left, most):
    """Of random sessions with their numbers those that are played, each with its name: some of at most so many lines, and some
    that are longer. `left` has how many are still wanted of both, and is counted down."""
    for number, text in numbered:
        lines = text.count(b"\n")
        kind = "short" if lines <= most else "long"
        if left[kind] == 0 or lines > max(most, MOST_OF_LONG):
            continue
        left[kind] -= 1
        yield f"session {number}", text
        if number % EACH_DAMAGED == 0:
            yield f"session {number} with damage", damaged(number, text)


def damaged(number, text):
    """A session with one to three kinds of damage."""
    damage = mutation.Damage(random.Random(f"history {number}"))
    for _ in range(damage.r.choice([1, 1, 1, 2, 3])):
        text = damage.of_session(text)
    return text


def told(program, text):
    """What the program writes: a report, or the line of a fault without the program's name."""
    ran = subprocess.run([program, "run"], input=text, capture_output=True, timeout=60, check=False)
    said = ran.stderr.decode(errors="replace")
    if ran.returncode == 0 and not said:
        return ran.stdout.decode(errors="replace")
    if ran.returncode == 3 and not ran.stdout:
        return said.partition(": ")[2]
    return f"status {ran.returncode}, with {len(ran.stdout)} bytes of a report, and {said}"


def played_in_order(program, text, wanted):
    """What the program writes of a session for which this report, made in the order of its lines, or this fault is wanted."""
    return told(program, text if wanted.startswith(FAULT) else gated(text))


def first_difference(got, wanted):
    """The first line in which two texts differ."""
    for line, (one, other) in enumerate(zip(got.splitlines() + [""], wanted.splitlines() + [""]), 1):
        if one != other:
            return f"line {line} is {one!r}, where {other!r} is wanted"
    return "one is longer"


class Comparison:
    """Counts texts that are equal and texts that differ, and tells of the first three that differ."""

    def __init__(self):
        self.equal = self.bad = 0

    def compare(self, name, got, wanted):
        if got == wanted:
            self.equal += 1
            return
        self.bad += 1
        if self.bad <= 3:
            print(f"{name}: {first_difference(got, wanted)}")


def compare_recorded(program, comparison):
    """The sessions of the corpus."""
    for row in corpus.read("histories"):
        comparison.compare(row["name"], played_in_order(program, row["session"], row["report"]), row["report"])
    print(f"{comparison.equal + comparison.bad} recorded sessions")


class Players:
    """The program and the reference, in processes that make sessions and play them by both."""

    def __init__(self, program, reference):
        # (the processes begin as copies of this one, and find both here)
        Players.program, Players.reference = program, reference
        self.pool = multiprocessing.get_context("fork").Pool(min(4, os.cpu_count() or 1))

    @staticmethod
    def made(number):
        return number, Players.reference.random_session(number)

    @staticmethod
    def played(named):
        name, text = named
        wanted = Players.reference.report_of(text)
        return name, played_in_order(Players.program, text, wanted), wanted

    def random_plays(self, count, first, most, long):
        """Random sessions, each with its name and its two reports."""
        left, numbers = {"short": count, "long": long}, itertools.count(first)
        while left["short"]:
            texts = self.pool.map(self.made, itertools.islice(numbers, BATCH), chunksize=10)
            yield from self.pool.map(self.played, chosen(texts, left, most), chunksize=10)


def compare_with(folder, program, choice, comparison):
    """The worked sessions beside a reference, and random ones."""
    reference = Reference(folder)
    before = comparison.equal + comparison.bad
    for name, text, own in reference.worked_sessions():
        wanted = reference.report_of(text)
        got = played_in_order(program, text, wanted)
        comparison.compare(name, got, wanted)
        if own is not None and not got.startswith(FAULT):
            comparison.compare(f"{name}.expected", got, own)
    worked, entries, faults = comparison.equal + comparison.bad - before, 0, 0
    for name, got, wanted in Players(program, reference).random_plays(*choice):
        entries += wanted.count("\n")
        faults += wanted.startswith(FAULT)
        comparison.compare(name, got, wanted)
    randoms = comparison.equal + comparison.bad - before - worked
    print(f"{worked} comparisons of worked sessions, {randoms} random sessions with {entries} lines of reports, {faults} faults")


def main():
    program, comparison = pathlib.Path(sys.argv[1]).resolve(), Comparison()
    compare_recorded(program, comparison)
    if len(sys.argv) > 2:
        given = [int(word) for word in sys.argv[3:]]
        compare_with(sys.argv[2], program, given + [COUNT, FIRST, MOST, LONG][len(given):], comparison)
    print(f"{comparison.equal} equal, {comparison.bad} differ")
    return comparison.bad > 0


if __name__ == "__main__":
    sys.exit(main())
