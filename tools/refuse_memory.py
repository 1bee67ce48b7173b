#!/usr/bin/env python3
"""Refuses a program's requests to the system, one in each run, and looks at how each run ends.

    refuse_memory.py [--program NAME] [--kind KIND].. [--sample N] [--least N] [--onward] [SESSION..]

Each session is played once for each request of a kind that it makes: `memory` (a call of malloc or the like, by any
thread, answers that there is none), `read` and `write` (standard input or output fails), `interrupt` (a read or write is
broken off), `short` (a read or write of several bytes moves one) and `thread` (a thread can't be started). With no kind
it is all of them; with no session the four that are worked in examples/: a first path, a route that moves under a
call, a failover, and a channel with two authorities. With --sample N it is N requests of each kind, spread evenly; with
--least N a session that makes fewer requests of a kind is wrong; with --onward all later requests of the kind fail too
(but for `interrupt`, where a program would try for ever).

What is wanted, where the full report is what the session gives without a fault:

    memory             `out of memory` after a prefix of the full report, or the full report
    read               `read fault` and nothing is written
    write              `write fault` after a prefix of the full report
    interrupt          the full report: a read or write that was broken off is made again
    short, thread      the full report

Each line of a session waits for the line before (tests/gating.py), so that there is one report, also with callers on
threads. For each session and kind it prints how many requests there were, and how many runs ended in which way. The
status is 1 where a run ended otherwise. The program is xds_replay where none is named; it is built without proof where
it has to be.
"""

import argparse
import collections
import pathlib
import sys
import tempfile

HERE = pathlib.Path(__file__).resolve().parent
sys.path[:0] = [str(HERE), str(HERE.parent / "tests")]
import player  # noqa: E402
import tracing  # noqa: E402
from gating import gated  # noqa: E402

SESSIONS = ["first_path", "route_moves_under_a_pin", "priority_failover", "federated_channel"]


def words():
    """The words of the command line."""
    about, _, more = __doc__.partition("\n\n")
    parser = argparse.ArgumentParser(prog="refuse_memory.py", description=about, epilog=more,
                                     formatter_class=argparse.RawDescriptionHelpFormatter)
    parser.add_argument("--program", default="xds_replay", help="a program of this repository that plays sessions")
    parser.add_argument("--kind", action="append", choices=tracing.KINDS, help="what fails; all kinds where none is named")
    parser.add_argument("--sample", type=int, metavar="N", help="at most N requests of each kind")
    parser.add_argument("--least", type=int, default=0, metavar="N", help="at least N requests of each kind are to be made")
    parser.add_argument("--onward", action="store_true", help="all later requests of the kind fail too")
    parser.add_argument("session", nargs="*", metavar="SESSION", help="a session's file, or the name of an example")
    given = parser.parse_args()
    if given.onward and "interrupt" in (given.kind or []):
        parser.error("--onward doesn't go with --kind interrupt")
    given.kind = given.kind or [kind for kind in tracing.KINDS if not (given.onward and kind == "interrupt")]
    return given


def file_of(name):
    """The file of a session, or of an example."""
    example = player.HOME / "examples" / f"{name}.session"
    return example if example.exists() else pathlib.Path(name)


def spread(count, sample):
    """The numbers 1 to count, or so many of them, spread evenly, with the first and the last."""
    if sample is None or sample >= count:
        return list(range(1, count + 1))
    if sample == 1:
        return [1]
    return sorted({1 + place * (count - 1) // (sample - 1) for place in range(sample)})


def judged(kind, end, out, full):
    """How a run ended, and whether that is as it should be. `full` is the full report."""
    is_full, is_prefix = end == "done" and out == full, full.startswith(out)
    name = "full report" if is_full else f"{end} after a prefix" if is_prefix and out else end
    if kind in ("interrupt", "short", "thread"):
        return name, is_full
    if kind == "memory":
        return name, is_full or end == "out of memory" and is_prefix
    if kind == "read":
        return name, end == "read fault" and not out
    return name, end == "write fault" and is_prefix


class Sweep:
    """Plays one session with one fault after another, as the words of the command line have it."""

    def __init__(self, program, file, given):
        self.program, self.file, self.given = program, file, given

    def run(self, fault):
        return tracing.run(self.program.command, self.file, fault)

    def sweep(self, kind):
        """Lets requests of a kind fail, one in each run. It gives their number, the counts of ends, and the bad runs."""
        first = self.run(tracing.Fault(kind))
        end = self.program.end_of(first.status, first.err)
        if end != "done":
            return first.count, collections.Counter(), [f"without a fault: {end}"]
        ends, bad = collections.Counter(), []
        if first.count < self.given.least:
            bad.append(f"{first.count} requests, where {self.given.least} are wanted")
        for number in spread(first.count, self.given.sample):
            ran = self.run(tracing.Fault(kind, number, self.given.onward))
            name, is_right = judged(kind, self.program.end_of(ran.status, ran.err), ran.out, first.out)
            ends[name] += 1
            if not is_right:
                bad.append(f"request {number} of {first.count}: {name}")
        return first.count, ends, bad


def main():
    given = words()
    if not tracing.is_allowed():
        print("skipped, since programs can't be traced here (Linux on x86-64 is needed, and leave to trace)")
        return 0
    program, is_bad = player.built(given.program), False
    for name in given.session or SESSIONS:
        with tempfile.NamedTemporaryFile() as file:
            file.write(gated(file_of(name).read_bytes()))
            file.flush()
            for kind in given.kind:
                count, ends, bad = Sweep(program, file.name, given).sweep(kind)
                told = ", ".join(f"{times:,} {end}" for end, times in sorted(ends.items())) or "none"
                print(f"{pathlib.Path(name).stem}, {kind}: {count:,} requests; runs: {told}", flush=True)
                for line in bad[:5]:
                    print(f"    wrong: {line}", flush=True)
                is_bad |= bool(bad)
    return is_bad


if __name__ == "__main__":
    sys.exit(main())
