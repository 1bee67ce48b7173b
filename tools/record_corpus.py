"""tools/record_corpus.py REFERENCE: records tests/corpus/, what the reference program in that folder answers.

400 sessions with their reports (300 of at most 60 lines, 100 longer ones), 300 resources with their values or
reasons, 200 damaged sessions with their first faults, and 60 damaged reports, each legal or not. The checks compare with
them everywhere, and with a reference beside they go on to random ones.
"""

import pathlib
import sys

TESTS = pathlib.Path(__file__).resolve().parent.parent / "tests"
sys.path[:0] = [str(TESTS), str(TESTS.parent / "tools")]
import compare_resources  # noqa: E402
import compare_sessions  # noqa: E402
import corpus  # noqa: E402
import judged_reports  # noqa: E402
from reference import Reference  # noqa: E402

SHORT, LONG, MOST_LINES = 300, 100, 60
RESOURCES, DAMAGED = 300, 200


def histories(reference):
    """Sessions with their reports: short ones, and some that are longer."""
    short = long = number = 0
    while short < SHORT or long < LONG:
        number += 1
        text = reference.random_session(number)
        is_short = text.count(b"\n") <= MOST_LINES
        if (short if is_short else long) >= (SHORT if is_short else LONG):
            continue
        short, long = short + is_short, long + (not is_short)
        yield {"name": f"session {number}", "session": text, "report": reference.report_of(text)}


def resources(reference):
    """Resources, random and damaged, each with its answer."""
    for kind, url, value in compare_resources.some_resources(reference, RESOURCES):
        yield {"kind": kind, "url": url, "value": value, "answer": compare_resources.answer_of(reference, kind, url, value)}


def damaged(reference):
    """Damaged sessions, each with the first fault or the number of lines and entries."""
    for text in compare_sessions.random_sessions(reference, DAMAGED):
        yield {"session": text, "told": compare_sessions.told(reference, text)}


def main():
    if len(sys.argv) != 2:
        raise SystemExit(__doc__)
    reference = Reference(sys.argv[1])
    kinds = ("histories", histories), ("resources", resources), ("sessions", damaged), ("judged", judged_reports.recorded)
    for name, rows in kinds:
        found = list(rows(reference))
        print(f"{name}: {len(found)} rows, {corpus.write(name, found):,} bytes")


if __name__ == "__main__":
    main()
