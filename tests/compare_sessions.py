"""tests/compare_sessions.py SHOW [REFERENCE [COUNT]]: compares the reading of sessions with recorded answers, and with a
reference program.

SHOW is the program probe_session. It reads the 200 sessions of the corpus. REFERENCE is the folder of a reference, which
has a reader of sessions and makes random ones: some sessions at the limits and COUNT others (5,000 if none is given) are
read by both: of ten, one as it was made, and nine with one to three kinds of damage. Each answer is the same line and
cause, or the same number of lines and of entries. The sessions are the same at each run.
"""

import pathlib
import random
import subprocess
import sys

HERE = pathlib.Path(__file__).resolve().parent
sys.path[:0] = [str(HERE), str(HERE.parent / "tools")]
import corpus  # noqa: E402
import mutation  # noqa: E402
from reference import Reference  # noqa: E402


def with_byte(r, line):
    at = r.randrange(len(line) + 1)
    return line[:at] + bytes([r.choice(b"0 19afgx@\xff\xc3=/+-.:%\r\t{}[]\"")]) + line[at + r.randrange(2):]


def damaged(r, text):
    """The session with one more kind of damage, mostly from line 5 on."""
    lines = text.split(b"\n")
    least = 0 if r.random() < 0.25 or len(lines) < 7 else 4
    at = r.randrange(least, len(lines))
    turn = r.randrange(9)
    if turn < 3:
        lines[at] = mutation.with_word(r, lines[at])
    elif turn < 5:
        lines[at] = with_byte(r, lines[at])
    elif turn == 5:
        lines.insert(at, r.choice(mutation.LINES))
    elif turn == 6:
        other = r.randrange(least, len(lines))
        lines[at], lines[other] = lines[other], lines[at]
    elif turn == 7:
        lines.insert(at, lines[r.randrange(least, len(lines))])
    else:
        return text[:r.randrange(len(text) + 1)]
    return b"\n".join(lines)


def at_limits():
    """Sessions at the limits of bytes, lines, data and entries, and just above them."""
    head = b"xds-session 1\nboot {\"xds_servers\":[{\"server_uri\":\"ms:1\"}]}\ntarget xds:///svc\ncallers 2\n"
    yield head + b"\n" * (67_108_864 - len(head))
    yield head + b"\n" * (67_108_865 - len(head))
    for sweeps in (20_000, 20_001):
        yield head + b"d sweep\n" * sweeps
        yield head + b"d sweep\n" + b"@5 d sweep\n" * (sweeps - 1)
        yield head + b"d sweep\n" * (sweeps - 1) + b"@x @y d"
    for lines in (199_996, 199_997):
        yield head + b"c 2 commit 7\n" * lines
    for size in (5_242_860, 5_242_865, 5_242_870, 8_388_607, 8_388_608, 8_388_609):
        yield head + b"d data - " + b"aB" * size
        yield head + b"d data - 00\n" + b"d data - " + b"00" * size + b"\nd sweep"
    yield head + b"c 1 start 1 1 /x\n" + b"c 1 pick 1 1\n" * 2 + b"d data - " + b"00" * (5 * 1_048_569) + b"\nd sweep"
    yield head + b"c 1 start 1 1 /x\n" + b"c 1 pick 1 1\n" * 3 + b"d data - " + b"00" * (5 * 1_048_569) + b"\nd sweep"


def random_sessions(reference, count):
    """So many sessions, most of them damaged."""
    for number in range(count):
        r = random.Random(f"session {number}")
        if number % 10 == 0:
            made = reference.fuzz(number, 16)
            yield made
            continue
        text = made
        for _ in range(r.choice([1, 1, 1, 2, 3])):
            text = damaged(r, text)
        yield text


def told(reference, text):
    """What the reference says of a session, as the program writes it."""
    try:
        session = reference.read_session(text)
    except reference.SessionFault as fault:
        return f"fault {fault.line} {fault.cause}\n"
    return f"lines {len(session.lines)} room {reference.room(session)}\n"


class Comparison:
    """Counts answers that are equal and answers that differ, by cause, and tells of the first three that differ."""

    def __init__(self, show):
        self.show, self.equal, self.bad, self.causes = show, 0, 0, {}

    def compare(self, name, text, wanted):
        ran = subprocess.run([self.show], input=text, capture_output=True, timeout=60, check=False)
        got = ran.stdout.decode(errors="replace") or f"status {ran.returncode}\n"
        cause = wanted.split()[2] if wanted.startswith("fault") else "none"
        self.causes[cause] = self.causes.get(cause, 0) + 1
        if got == wanted:
            self.equal += 1
            return
        self.bad += 1
        if self.bad <= 3:
            print(f"{name}: {got.strip()}, where {wanted.strip()} is wanted")


def main():
    comparison = Comparison(pathlib.Path(sys.argv[1]).resolve())
    for place, row in enumerate(corpus.read("sessions")):
        comparison.compare(f"recorded session {place}", row["session"], row["told"])
    if len(sys.argv) > 2:
        reference = Reference(sys.argv[2])
        count = int(sys.argv[3]) if len(sys.argv) > 3 else 5_000
        for place, text in enumerate(at_limits()):
            comparison.compare(f"session {place} at the limits", text, told(reference, text))
        for number, text in enumerate(random_sessions(reference, count)):
            comparison.compare(f"session {number}", text, told(reference, text))
    print("causes: " + ", ".join(f"{cause} {count}" for cause, count in sorted(comparison.causes.items())))
    print(f"{comparison.equal} equal, {comparison.bad} differ")
    return comparison.bad > 0


if __name__ == "__main__":
    sys.exit(main())
