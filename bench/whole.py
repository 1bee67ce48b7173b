"""bench/whole.py [--runs N] [--only KIND..] [--threads] [--system] [--svg FILE] [--most RATIO] [--most-twice RATIO]: what whole
sessions cost.

Each kind of session is played in three sizes, each twice as large as the one before; tools/large_sessions.py makes most of
them, and `load` and `gen` need none. Told are user time and peak memory, the least of N runs of the whole program, and
how much longer the largest one takes than the one before. XDS_YARDSTICK names another program with the same commands: then
both play by turns, what they write is compared in the smallest size, and the ratio of their times is told too. With --threads
the other program gets the word --threads, by which it plays on threads, too. With --system the time that the system works for a
program is counted, too, as when it wakes threads. --svg draws the times over the sizes. With --most the status is 1 where a
ratio to the other program is above it, with --most-twice where one to half the size is.
"""

import argparse
import hashlib
import os
import pathlib
import subprocess
import sys
import tempfile

import plot
import timing

sys.path[:0] = [str(timing.HOME / "tools"), str(timing.HOME / "tests")]
import large_sessions  # noqa: E402
from gating import gated  # noqa: E402

# The kinds, with their words, what their size counts, and the largest one.
KINDS = {
    "load": ("`load N`", "rounds", 1_000),
    "gen": ("`run` of what `gen N` writes", "rounds", 1_000),
    "mixed": ("1,024 clusters: Endpoint responses of 120 of them, each with five calls and fifty picks", "responses", 200),
    "held_calls": ("1,024 clusters: calls that each hold one while an endpoint reports", "calls", 4_000),
    "picks": ("calls with a pick each", "calls", 65_536),
    "endpoint_lines": ("1,024 clusters: reports on endpoints", "lines", 19_996),
    "endpoint_responses": ("1,024 clusters: Endpoint responses of 120 of them", "responses", 200),
    "first_endpoints": ("1,024 clusters whose endpoints come one by one, and are awaited", "responses", 1_000),
    "calls_by_routes": ("1,024 routes: calls that only the last one fits", "calls", 10_000),
}


class Run:
    """One kind of session in one size: its input, and what each program needs for it."""

    def __init__(self, kind, size, programs, room, given):
        self.more = {program: ["--threads"] * given.threads for program in programs[1:]}
        self.with_system = given.system
        self.size, self.best = size, {program: (float("inf"), float("inf")) for program in programs}
        self.words, self.input = (["load", str(size)] if kind == "load" else ["run"]), pathlib.Path(os.devnull)
        if kind != "load":
            self.input = room / f"{kind}.{size}"
            self.input.write_text(session(kind, size, programs[0]))

    def measure(self):
        """Runs each program once, and keeps the least time and memory."""
        for program, best in self.best.items():
            cost = timing.alone(program, self.words_for(program), self.input, with_system=self.with_system)
            self.best[program] = tuple(map(min, best, cost))

    def words_for(self, program):
        """The words that a program gets."""
        return self.words + self.more.get(program, [])

    def written(self, program):
        """A sum of what a program writes where gates leave one order of the lines."""
        total = hashlib.sha256()
        with tempfile.TemporaryFile() as given:
            given.write(gated(self.input.read_bytes()))
            given.seek(0)
            run = subprocess.Popen([program, *self.words_for(program)], stdin=given, stdout=subprocess.PIPE)
            for piece in iter(lambda: run.stdout.read(1 << 20), b""):
                total.update(piece)
        return run.wait(), total.hexdigest()


def session(kind, size, program):
    """The text of a session."""
    if kind == "gen":
        return subprocess.run([program, "gen", str(size)], stdout=subprocess.PIPE, check=True, text=True).stdout
    return large_sessions.text(large_sessions.KINDS[kind](size))


def measured(kind, programs, given):
    """A kind's runs in its three sizes, as these words have them."""
    largest = KINDS[kind][2]
    with tempfile.TemporaryDirectory() as room:
        found = [Run(kind, largest // part, programs, pathlib.Path(room), given) for part in (4, 2, 1)]
        if len({found[0].written(program) for program in programs}) > 1:
            raise SystemExit(f"{kind}: the programs write different texts")
        for _ in range(given.runs):
            for run in found:
                run.measure()
    return found


def twice(runs, program):
    """How much longer the largest run takes than the one of half its size."""
    return runs[2].best[program][0] / max(runs[1].best[program][0], 1e-6)


def shown(best):
    """Time and memory as cells of a table."""
    return f"{best[0] * 1000:.1f} ms | {best[1] / 1e6:.1f} MB"


def row(kind, runs, programs):
    """A row of the table, with the ratio of twice the size, and of the two programs where there are two."""
    what, unit, _ = KINDS[kind]
    cells = [what, f"{runs[2].size:,} {unit}", shown(runs[2].best[programs[0]]), f"{twice(runs, programs[0]):.2f}"]
    for other in programs[1:]:
        cells += [shown(runs[2].best[other]), f"{ratio(runs, programs):.2f}"]
    return "| " + " | ".join(cells) + " |"


def ratio(runs, programs):
    """How much longer the first of two programs takes."""
    return runs[2].best[programs[0]][0] / max(runs[2].best[programs[1]][0], 1e-6)


def head(programs):
    """The head of the table."""
    cells = ["Session", "Size", "Time", "Memory", "To half the size"] + ["The other's time", "Its memory", "Ratio"] * (len(programs) - 1)
    return "| " + " | ".join(cells) + " |\n" + "|---" * len(cells) + "|"


def curves(runs, programs):
    """For each program its times over the sizes."""
    return [[(run.size, run.best[program][0] * 1000) for run in runs] for program in programs]


def words():
    parser = argparse.ArgumentParser(description="What whole sessions cost.")
    parser.add_argument("--runs", type=int, default=10, help="how often each session is played")
    parser.add_argument("--only", nargs="+", choices=KINDS, default=list(KINDS), help="the kinds of sessions")
    parser.add_argument("--threads", action="store_true", help="the other program plays on threads, too")
    parser.add_argument("--system", action="store_true", help="the time that the system works for a program counts, too")
    parser.add_argument("--svg", type=pathlib.Path, help="the file of a drawing")
    timing.add_most(parser)
    parser.add_argument("--most-twice", type=float, help="the greatest ratio to half the size that is allowed")
    return parser.parse_args()


def main():
    given, programs, panels, is_above = words(), timing.programs(), [], False
    print(head(programs))
    for kind in given.only:
        runs = measured(kind, programs, given)
        print(row(kind, runs, programs), flush=True)
        panels.append(plot.Panel(kind.replace("_", " "), KINDS[kind][1], curves(runs, programs)))
        is_above |= given.most_twice is not None and twice(runs, programs[0]) > given.most_twice
        is_above |= given.most is not None and len(programs) > 1 and ratio(runs, programs) > given.most
    if given.svg:
        given.svg.write_text(plot.drawing(panels, ["xds_replay", "the other program"][:len(programs)]))
    return is_above


if __name__ == "__main__":
    sys.exit(main())
