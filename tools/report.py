"""Shows the report of a session as a page that one can look at, or as plain text.

    python3 tools/report.py REPORT [SESSION] > page.html
    python3 tools/report.py --text REPORT [SESSION]
    python3 tools/report.py --text --why CALL REPORT [SESSION]

The page stands alone: it needs no network and no other file. REPORT may be `-`, which is standard input. With SESSION,
the session that was played, each entry stands beside its line. docs/REPORTS.md says how to read a report.
"""

from __future__ import annotations

import argparse
import os
import re
import sys
from collections.abc import Iterator

import report_html
import report_model as model
import report_text
from report_filter import Selection
from report_reader import read_report
from report_session import Session, check_fits, read_session
from report_story import Story
from report_words import display_name


class Refusal(Exception):
    """Why nothing is shown, in one sentence."""


def line_range(text: str) -> tuple[int, int]:
    """The session lines of `7` or `7-12`."""
    found = re.fullmatch(r"([0-9]+)(?:-([0-9]+))?", text)
    if not found:
        raise argparse.ArgumentTypeError(f"{text} isn't a line or two lines joined by `-`")
    return int(found[1]), int(found[2] or found[1])


def actor_number(text: str) -> int:
    """0 of `d`, and 3 of `c3`."""
    if text == "d":
        return 0
    if not re.fullmatch(r"c([1-9]|1[0-6])", text):
        raise argparse.ArgumentTypeError(f"{text} isn't an actor, which is d or c1 to c16")
    return int(text[1:])


def arguments() -> argparse.Namespace:
    parser = argparse.ArgumentParser(
        prog="report.py", description="Shows the report of a session as an HTML page on standard output, or as text.",
        epilog="Where a line of the report or of the session is wrong, one sentence says so, and the status is 2.")
    parser.add_argument("report", metavar="REPORT", help="the report's file, or - for standard input")
    parser.add_argument("session", metavar="SESSION", nargs="?", help="the session that was played, to show its lines")
    parser.add_argument("--text", action="store_true", help="plain text in place of a page")
    parser.add_argument("--why", metavar="CALL", type=int, help="with --text: only why this call went where it went")
    parser.add_argument("--cluster", metavar="NAME", help="begin with the entries about this cluster alone")
    parser.add_argument("--call", metavar="CALL", type=int, help="begin with the entries of this call alone")
    parser.add_argument("--line", metavar="A[-B]", type=line_range, help="begin with these session lines")
    parser.add_argument("--actor", metavar="d|cK", type=actor_number, help="begin with the entries of this actor alone")
    given = parser.parse_args()
    if given.why is not None and not given.text:
        parser.error("--why answers in text: give --text too")
    return given


def read_file(name: str) -> bytes:
    try:
        if name == "-":
            return sys.stdin.buffer.read()
        with open(name, "rb") as file:
            return file.read()
    except OSError as error:
        raise Refusal(f"{name} can't be read: {error.strerror}") from None


def read_report_file(name: str) -> model.Report:
    try:
        return read_report(read_file(name))
    except model.Fault as fault:
        raise Refusal(f"{'the report' if name == '-' else name}: {fault}") from None


def read_session_file(name: str, report: model.Report) -> Session:
    try:
        session = read_session(read_file(name))
        check_fits(session, report)
        return session
    except model.Fault as fault:
        raise Refusal(f"{name}: {fault}") from None


def cluster_name(text: str | None, story: Story) -> str | None:
    """The cluster that is called so, as it is, as the report escapes it, or as it is shown."""
    if text is None:
        return None
    for name in story.clusters():
        if text in (name, model.escape(name), display_name(name)):
            return name
    raise Refusal(f"the report has no cluster {display_name(text)}")


def shown_lines(given: argparse.Namespace) -> Iterator[str]:
    """What is written, line by line."""
    report = read_report_file(given.report)
    session = read_session_file(given.session, report) if given.session else None
    story = Story(report)
    for call in (given.why, given.call):
        if call is not None and call not in story.calls:
            raise Refusal(f"the report has no call {call}")
    if given.why is not None:
        return report_text.call_text(story.calls[given.why], story, session)
    wanted = Selection(cluster_name(given.cluster, story), given.call, given.line, given.actor)
    if given.text:
        return report_text.text_page(story, session, wanted)
    title = "standard input" if given.report == "-" else os.path.basename(given.report)
    return report_html.page(story, session, wanted, title)


def main() -> int:
    given = arguments()
    sys.stdout.reconfigure(encoding="utf-8", errors="backslashreplace")
    try:
        for line in shown_lines(given):
            print(line)
        sys.stdout.flush()
    except Refusal as refusal:
        print(f"report.py: {refusal}", file=sys.stderr)
        return 2
    except BrokenPipeError:
        os.dup2(os.open(os.devnull, os.O_WRONLY), sys.stdout.fileno())
    return 0


if __name__ == "__main__":
    sys.exit(main())
