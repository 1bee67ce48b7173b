#!/usr/bin/env python3
"""Plays the large sessions of tools/hostile_sessions.py in a small stack, and measures time and peak memory.

    play_large.py [--program NAME] [--stack KIB] [--seconds N] [--reference FILE] [CASE..]

Each case, or each that is named, is played by a program of this repository (xds_replay where none is named) with a stack
of 256 KiB (of 512 KiB for patterns), for its main thread and for each thread that it starts. The session is refused or its report is written, and
the peak memory stays below the case's bound. Where there is a reference program that is called as xds_replay is (by
tools/reference.py), it plays the case too, and the reports are the same; where callers run on threads, their last lines
are. The status is 1 where a case isn't so.
"""

import argparse
import dataclasses
import hashlib
import os
import pathlib
import resource
import signal
import subprocess
import sys
import tempfile
import time

sys.path.insert(0, str(pathlib.Path(__file__).resolve().parent))
import hostile_sessions  # noqa: E402
import player  # noqa: E402
import reference as adapter  # noqa: E402


@dataclasses.dataclass
class Ran:
    """A run: its end, a sum over what it wrote, the last line, the time that it took, and its peak memory in KiB."""

    end: str
    total: str
    last: str
    seconds: float
    peak: int

    def is_same(self, other, is_one_text):
        return self.end == other.end and self.last == other.last and (self.total == other.total or not is_one_text)


def sum_and_last(file):
    """A sum over a file, and its last line."""
    file.seek(0)
    total = hashlib.file_digest(file, "sha256").hexdigest()
    file.seek(max(0, file.tell() - 200))
    lines = file.read().decode(errors="replace").splitlines()
    return total, lines[-1][:100] if lines else ""


def run(program, given, stack, most):
    """Plays a session from a file in a stack of so many KiB, for at most so many seconds."""
    def limited():
        resource.setrlimit(resource.RLIMIT_STACK, (stack << 10, stack << 10))
        resource.setrlimit(resource.RLIMIT_CORE, (0, 0))

    with open(given, "rb") as source, tempfile.TemporaryFile() as out, tempfile.TemporaryFile() as err:
        start = time.monotonic()
        child = subprocess.Popen(program.command, stdin=source, stdout=out, stderr=err, preexec_fn=limited)
        signal.signal(signal.SIGALRM, lambda *_: child.kill())
        signal.alarm(most)
        _, status, usage = os.wait4(child.pid, 0)
        signal.alarm(0)
        took = time.monotonic() - start
        child.returncode = os.waitstatus_to_exitcode(status)
        err.seek(0)
        end = program.end_of(child.returncode, err.read())
        if child.returncode == -signal.SIGKILL and took >= most:
            end = f"no end in {most} s"
        return Ran(end, *sum_and_last(out), took, usage.ru_maxrss)


def shown(ran):
    said = f"{ran.end} ({ran.last})" if ran.end == "done" else ran.end
    return f"{said}, {ran.seconds:.2f} s, {ran.peak / 1024:.0f} MiB"


def words():
    """The words of the command line."""
    about, _, more = __doc__.partition("\n\n")
    parser = argparse.ArgumentParser(prog="play_large.py", description=about, epilog=more,
                                     formatter_class=argparse.RawDescriptionHelpFormatter)
    parser.add_argument("--program", default="xds_replay", help="a program of this repository that plays sessions")
    parser.add_argument("--stack", type=int, metavar="KIB", help="the stack of each thread, in place of the case's")
    parser.add_argument("--seconds", type=int, default=120, metavar="N", help="how long a case may take")
    parser.add_argument("--reference", default=adapter.program()[0], metavar="FILE", help="the reference program")
    parser.add_argument("case", nargs="*", metavar="CASE", help="a case, by its name")
    return parser.parse_args()


def is_right(case, ran, wanted):
    """Whether a run ended as it should, within its bound, and as the reference's did."""
    ends = ran.end == "done" or ran.end.startswith("session line")
    return ends and ran.peak <= case.bound * 1024 and (wanted is None or ran.is_same(wanted, case.is_one_text))


def main():
    given, bad = words(), 0
    program = player.built(given.program)
    reference = player.Player(str(given.reference)) if os.path.exists(given.reference) else None
    if reference is None:
        print(f"no reference program is at {given.reference}: the reports aren't compared")
    cases = [case for case in hostile_sessions.CASES if not given.case or case.name in given.case]
    for case in cases:
        with tempfile.NamedTemporaryFile() as file:
            # (made by another process, since the memory of this one would be counted as the peak of its children)
            subprocess.run([sys.executable, hostile_sessions.__file__, case.name], stdout=file, check=True)
            stack = given.stack or case.stack
            ran = run(program, file.name, stack, given.seconds)
            wanted = reference and run(reference, file.name, stack, given.seconds)
        good = is_right(case, ran, wanted)
        bad += not good
        beside = f"; the reference: {shown(wanted)}" if wanted else ""
        print(f"{'good' if good else 'WRONG'}: {case.name}: {shown(ran)} of {case.bound}{beside}", flush=True)
    print(f"{len(cases) - bad} good, {bad} bad")
    return bad > 0


if __name__ == "__main__":
    sys.exit(main())
