"""tests/threaded_sessions.py PROGRAM JUDGE [REFERENCE]: plays sessions as they are, so that on threads their actors act in any order.

PROGRAM is xds_replay, which is called with the word `run`. It plays each session of examples/ five times. In each report
the entries of each actor are those of the stored report in their order: the same lines with the same events. Answers aren't
compared, since they depend on the order of the actors, and holds neither, since a start that finds no snapshot has none.

JUDGE is xds_judge, which finds each report legal, whatever order its actors acted in.

REFERENCE is the folder of a reference, which makes random sessions of up to sixteen callers, and judges reports too. Those
that aren't refused and have lines of several actors are played, 200 or as many as the variable SESSIONS says. Each report
is legal by both. Of 1,000 or more at least 30 in 100 stand in another order than the session's lines, since else hardly
anything but that order would be judged.

The first three reports that aren't right are kept with their sessions, since at the next run they may be.
"""

import itertools
import os
import pathlib
import subprocess
import sys
import tempfile

HERE = pathlib.Path(__file__).resolve().parent
sys.path[:0] = [str(HERE), str(HERE.parent / "tools")]
from compare_histories import told  # noqa: E402
from judged_reports import Judge  # noqa: E402
from reference import Reference  # noqa: E402

TIMES, SESSIONS = 5, 200
MANY, LEAST_IN_100 = 1_000, 30  # Of so many sessions or more at least these are to be in another order.
WORDS_OF_EVENT = {"sweep": 1, "endpoint": 3}  # Any other event has two words.


def entries(report):
    """The entries of a report: of each its line of the session, its actor, and its event in words."""
    for line in report.splitlines():
        words = line.split(" ")
        if words[0].isdigit() and len(words) > 3:
            yield words[1], words[2], words[3:3 + WORDS_OF_EVENT.get(words[3], 2)]


def order_of(report):
    """The order of a report's entries: of each the line and the actor."""
    return [(line, actor) for line, actor, _ in entries(report)]


def by_actor(report):
    """What each actor does: its lines with their events in their order, without holds, and at the end the last sweep."""
    found = {"d": []}
    for line, actor, event in entries(report):
        if line == "0":
            for done in found.values():
                done.append(event)
        elif event[0] != "hold":
            found.setdefault(actor, []).append((line, event))
    return found


def late_holds(report):
    """How many calls hold their cluster behind an entry of the driver that came after their pin."""
    late, since_pin = 0, {}
    for _, actor, event in entries(report):
        if event[0] == "pin":
            since_pin[actor] = False
        elif event[0] == "hold":
            late += since_pin.pop(actor, False)
        elif actor == "d":
            since_pin = dict.fromkeys(since_pin, True)
    return late


def played(program, name, text):
    """What the program writes of a session. Where one has no end, no further one is played."""
    try:
        return told(program, text)
    except subprocess.TimeoutExpired as late:
        raise SystemExit(f"{name}: no end in {late.timeout:.0f} s") from None


def mistake_of(judge, text, report):
    """The first mistake of a report by the judge, or None where it is legal."""
    status, said = judge.judged(text, report)
    return f"by the judge: {said.strip()}" if status else None


class Count:
    """Counts reports that are right and that aren't, and keeps the first three of these with their sessions."""

    def __init__(self):
        self.good = self.bad = 0

    def add(self, name, text, report, fault):
        if fault is None:
            self.good += 1
            return
        self.bad += 1
        if self.bad <= 3:
            fault = fault if report.startswith("xds-report") else report.strip()
            folder = pathlib.Path(tempfile.mkdtemp(prefix="play_on_threads_"))
            (folder / "session").write_bytes(text)
            (folder / "report").write_text(report)
            print(f"{name}: {fault}; {folder} has the session and the report")


def play_examples(program, judge):
    """Plays the examples, and answers whether an actor did anything else than in the stored report, or one isn't legal."""
    count = Count()
    for path in sorted((HERE.parent / "examples").glob("*.session")):
        text, wanted = path.read_bytes(), by_actor(path.with_suffix(".expected").read_text())
        for _ in range(TIMES):
            report = played(program, path.stem, text)
            fault = fault_of_actors(by_actor(report), wanted) or mistake_of(judge, text, report)
            count.add(path.stem, text, report, fault)
    print(f"{count.good} plays of examples legal and in the order of each actor, {count.bad} not")
    return count.bad > 0


def fault_of_actors(got, wanted):
    """Which actor does what isn't wanted, or None."""
    wrong = sorted(actor for actor in got.keys() | wanted.keys() if got.get(actor) != wanted.get(actor))
    return f"the lines and events of {', '.join(wrong)} aren't those of the stored report" if wrong else None


def random_sessions(reference, count):
    """So many random sessions that are played and have lines of several actors: the number and the text of each, and its
    report in the order of its lines."""
    numbers = itertools.count(1)
    while count:
        number = next(numbers)
        text = reference.random_session(number)
        report = reference.report_of(text)
        if len({actor for _, actor in order_of(report)}) > 1:
            count -= 1
            yield number, text, report


def play_random(program, judge, reference, sessions):
    """Plays so many random sessions, and answers whether a report isn't legal, or too few are in another order."""
    count, other, late = Count(), 0, 0
    for number, text, in_order in random_sessions(reference, sessions):
        name = f"session {number}"
        report = played(program, name, text)
        fault = reference.fault_of_report(text, report) or mistake_of(judge, text, report)
        count.add(name, text, report, fault)
        other += fault is None and order_of(report) != order_of(in_order)
        late += late_holds(report)
    is_few = sessions >= MANY and 100 * other < LEAST_IN_100 * sessions
    if is_few:
        print(f"fewer than {LEAST_IN_100} in 100 are in another order")
    print(f"{count.good} legal, {other} in another order, {late} holds behind an entry of the driver since their pin")
    return count.bad > 0 or is_few


def main():
    program, judging = (pathlib.Path(it).resolve() for it in sys.argv[1:3])
    with tempfile.TemporaryDirectory(prefix="play_on_threads_") as room:
        judge = Judge(judging, pathlib.Path(room))
        is_bad = play_examples(program, judge)
        if len(sys.argv) > 3:
            is_bad |= play_random(program, judge, Reference(sys.argv[3]), int(os.environ.get("SESSIONS") or SESSIONS))
    return is_bad


if __name__ == "__main__":
    sys.exit(main())
