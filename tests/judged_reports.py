"""tests/judged_reports.py JUDGE REPLAY [REFERENCE]: judges reports of sessions, and damaged ones.

JUDGE is xds_judge, which is called with the file of a session and that of a report. It finds legal the stored report of
each example, the 355 reports of the corpus, and what REPLAY, which is xds_replay, writes of the same sessions on threads and
of generated ones. Of a session that is refused it tells the first fault. Of each example of examples/damaged/, and of each
report of tests/judged/, whose sessions stand there too, it tells the mistake that stands in the file beside it.

Damaged reports have another number, name or order, or a line or an entry too few or too many, or entries of two actors are
exchanged. The corpus has 60, of which the answer is recorded. REFERENCE is the folder of a reference, which judges reports
too: 100 damaged ones, or as many as the variable DAMAGED says, get its answer. They are the same at each run. The first
three with another answer are kept with their sessions.
"""

import collections
import os
import pathlib
import random
import re
import subprocess
import sys
import tempfile

HERE = pathlib.Path(__file__).resolve().parent
EXAMPLES = HERE.parent / "examples"
sys.path[:0] = [str(HERE), str(HERE.parent / "tools")]
import corpus  # noqa: E402
from compare_histories import FAULT, told  # noqa: E402
from reference import Reference  # noqa: E402

DAMAGED, RECORDED = 100, 60
ROUNDS = 1, 40
LEGAL, NOT_LEGAL, REFUSED = 0, 1, 3
FURTHER = "  "  # (so begins a line of an entry but for its first)


def entries_of(lines):
    """The places of a report's entries: of each its first line, and the line behind its last."""
    heads = [at for at in range(1, len(lines)) if not lines[at].startswith((FURTHER, "end "))]
    ends = heads[1:] + [next((at for at in range(1, len(lines)) if lines[at].startswith("end ")), len(lines))]
    return list(zip(heads, ends))


def numbered(lines):
    """The report with the numbers of its entries in order."""
    lines = lines[:]
    for number, (at, _) in enumerate(entries_of(lines), 1):
        lines[at] = f"{number} " + lines[at].partition(" ")[2]
    return lines


def with_number(r, lines):
    """Another number in a line."""
    found = [(at, word) for at, line in enumerate(lines) for word in re.finditer(r"\d+", line)]
    at, word = r.choice(found)
    number = r.choice([int(word[0]) + 1, max(int(word[0]) - 1, 0), r.randrange(20)])
    lines[at] = lines[at][:word.start()] + str(number) + lines[at][word.end():]
    return lines


def with_name(r, lines):
    """Another word in a line, which stands somewhere in the report."""
    words = [(at, place) for at, line in enumerate(lines) for place, word in enumerate(line.split(" ")) if word]
    (at, place), (other, from_place) = r.choice(words), r.choice(words)
    line = lines[at].split(" ")
    line[place] = lines[other].split(" ")[from_place]
    lines[at] = " ".join(line)
    return lines


def with_order(r, lines):
    """Two lines in each other's place."""
    one, other = r.randrange(len(lines)), r.randrange(len(lines))
    lines[one], lines[other] = lines[other], lines[one]
    return lines


def without_line(r, lines):
    """A line too few."""
    del lines[r.randrange(len(lines))]
    return lines


def with_line_again(r, lines):
    """A line too many."""
    at = r.randrange(len(lines))
    return lines[:at] + lines[at:at + 1] + lines[at:]


def without_entry(r, lines):
    """An entry too few; the numbers of the others stand in order, or not."""
    first, end = r.choice(entries_of(lines))
    left = lines[:first] + lines[end:]
    return numbered(left) if r.random() < 0.5 else left


def with_entry_again(r, lines):
    """An entry too many, with all numbers in order."""
    first, end = r.choice(entries_of(lines))
    return numbered(lines[:end] + lines[first:])


def with_turns_exchanged(r, lines):
    """Two entries that stand beside each other in each other's place, of two actors where there are such ones. All numbers
    stand in order, so this may be legal too."""
    entries = entries_of(lines)
    pairs = list(zip(entries, entries[1:]))
    of_two = [(one, other) for one, other in pairs if actor(lines[one[0]]) != actor(lines[other[0]])]
    if not pairs:
        return lines[:-1]
    one, other = r.choice(of_two or pairs)
    return numbered(lines[:one[0]] + lines[other[0]:other[1]] + lines[one[0]:one[1]] + lines[other[1]:])


def actor(line):
    """The actor of an entry."""
    return line.split(" ")[2:3]


def without_sweep(r, lines):
    """No last sweep, and one entry fewer in the last line."""
    del r
    end = lines[-1].split(" ")
    return lines[:-2] + [f"end {int(end[1]) - 1} {end[2]}"]


KINDS = (with_number, with_number, with_name, with_name, with_order, without_line, with_line_again, without_entry, with_entry_again,
         with_turns_exchanged, with_turns_exchanged, with_turns_exchanged, without_sweep)


def damaged(number, bases):
    """The damaged report of a number: its session, and the report."""
    r = random.Random(f"report {number}")
    text, report = r.choice(bases)
    if r.random() < 0.04:
        return text, report[:r.randrange(len(report))]
    lines = r.choice(KINDS)(r, report.splitlines())
    return text, "".join(f"{line}\n" for line in lines)


def sessions_with_reports():
    """The sessions of the examples and of the corpus that are played, each with its report."""
    for path in sorted(EXAMPLES.glob("*.session")):
        yield path.read_bytes(), path.with_suffix(".expected").read_text()
    for row in corpus.read("histories"):
        if not row["report"].startswith(FAULT):
            yield row["session"], row["report"]


class Judge:
    """The program, and how many of its answers are right. The first three that aren't are kept."""

    def __init__(self, program, room):
        self.program, self.session, self.report = program, room / "session", room / "report"
        self.good, self.bad = collections.Counter(), 0

    def judged(self, text, report):
        """The status for a session and a report, and what stands on standard error."""
        self.session.write_bytes(text)
        self.report.write_bytes(report.encode())
        words = [self.program, self.session, self.report]
        ran = subprocess.run(words, capture_output=True, timeout=60, check=False)
        return ran.returncode, ran.stderr.decode(errors="replace") + ran.stdout.decode(errors="replace")

    def expect(self, name, text, report, status, said=None):
        """Judges a report, for which this status is wanted, and these words on standard error."""
        got = self.judged(text, report)
        if said is None:
            said = "" if status == LEGAL else got[1] if re.match(r"line \d+: ", got[1]) else "line N: .."
        if got == (status, said):
            self.good[status] += 1
            return
        self.bad += 1
        if self.bad <= 3:
            folder = pathlib.Path(tempfile.mkdtemp(prefix="judge_reports_"))
            (folder / "session").write_bytes(text)
            (folder / "report").write_bytes(report.encode())
            print(f"{name}: status {got[0]}, {got[1].strip()!r}, where {status}, {said.strip()!r} is wanted; {folder} has both")

    def tell(self, what):
        """Prints how many answers are right since the last call."""
        good = self.good
        print(f"{what}: {good[LEGAL]} legal, {good[NOT_LEGAL]} not, {good[REFUSED]} sessions refused; {self.bad} wrong so far")
        self.good = collections.Counter()


def judge_played(judge, replay, bases):
    """Judges what is played: the stored reports, and those of the same sessions and of generated ones, played on threads."""
    for place, (text, report) in enumerate(bases):
        judge.expect(f"session {place}", text, report, LEGAL)
        judge.expect(f"session {place} on threads", text, told(replay, text), LEGAL)
    for rounds in ROUNDS:
        text = subprocess.run([replay, "gen", str(rounds)], capture_output=True, check=True).stdout
        judge.expect(f"{rounds} rounds", text, told(replay, text), LEGAL)
    judge.tell("played")


def judge_refused(judge):
    """Judges reports of what is no session."""
    for row in corpus.read("histories"):
        if row["report"].startswith(FAULT):
            judge.expect(row["name"], row["session"], "xds-report 1\nend 0 0\n", REFUSED, f"xds_judge: {row['report']}")
    judge.tell("refused")


def judge_examples(judge):
    """Judges the damaged reports that stand as examples, and those of the sessions that stand beside them in tests/judged/."""
    for damaged_reports, sessions in ((EXAMPLES / "damaged", EXAMPLES), (HERE / "judged", HERE / "judged")):
        for path in sorted(damaged_reports.glob("*.report")):
            text = (sessions / f"{path.stem.partition('.')[0]}.session").read_bytes()
            judge.expect(path.stem, text, path.read_text(), NOT_LEGAL, path.with_suffix(".mistake").read_text())
    judge.tell("examples of damage")


def recorded(reference):
    """Damaged reports with the answers of a reference, for the corpus."""
    bases = [base for base in sessions_with_reports() if len(base[1]) < 4_000]
    for number in range(RECORDED):
        text, report = damaged(f"to record {number}", bases)
        yield {"session": text, "report": report, "is_legal": reference.fault_of_report(text, report) is None}


def judge_damaged(judge, bases, reference, count):
    """Judges damaged reports: the recorded ones, and others by a reference."""
    for place, row in enumerate(corpus.read("judged")):
        judge.expect(f"recorded report {place}", row["session"], row["report"], LEGAL if row["is_legal"] else NOT_LEGAL)
    for number in range(count if reference else 0):
        text, report = damaged(number, bases)
        fault = reference.fault_of_report(text, report)
        judge.expect(f"damaged report {number}", text, report, LEGAL if fault is None else NOT_LEGAL)
    judge.tell("damaged")


def main():
    program, replay = (str(pathlib.Path(it).resolve()) for it in sys.argv[1:3])
    reference = Reference(sys.argv[3]) if len(sys.argv) > 3 else None
    bases = list(sessions_with_reports())
    with tempfile.TemporaryDirectory(prefix="judge_reports_") as room:
        judge = Judge(program, pathlib.Path(room))
        judge_played(judge, replay, bases)
        judge_refused(judge)
        judge_examples(judge)
        judge_damaged(judge, bases, reference, int(os.environ.get("DAMAGED") or DAMAGED))
    return judge.bad > 0


if __name__ == "__main__":
    sys.exit(main())
