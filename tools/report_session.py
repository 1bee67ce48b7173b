"""The session that a report is of: its lines, shortened, and whether the report can be of it."""

from __future__ import annotations

from dataclasses import dataclass

import report_model as model
from report_model import Fault

GOLDEN_STEP = 0x9E3779B97F4A7C15
DATA_SHOWN = 16
LINE_SHOWN = 240


@dataclass(frozen=True, slots=True)
class Session:
    """The lines of a session without their line feeds; line 1 stands at place 0."""
    lines: tuple[str, ...]

    def short_line(self, line: int) -> str | None:
        """A line of the session, shortened; None for line 0, which is the last sweep's."""
        return shorten(self.lines[line - 1]) if 1 <= line <= len(self.lines) else None

    def words(self, line: int) -> list[str]:
        """A line's words without its gate."""
        words = self.lines[line - 1].split(" ")
        return words[1:] if words[0].startswith("@") else words


def read_session(data: bytes) -> Session:
    """The lines, else a Fault where the bytes begin like no session."""
    lines = data.split(b"\n")
    if not lines[-1]:
        lines.pop()
    session = Session(tuple(decode(place, line) for place, line in enumerate(lines, 1)))
    if not session.lines or session.lines[0] != "xds-session 1":
        raise Fault(1, "a session begins with the line `xds-session 1`")
    return session


def decode(place: int, line: bytes) -> str:
    try:
        return line.decode("utf-8")
    except UnicodeDecodeError:
        raise Fault(place, "the line isn't UTF-8") from None


def shorten(line: str) -> str:
    """The line with a data line's bytes cut, and cut at its end where it is long; what doesn't print is escaped."""
    if not line.isprintable():
        line = "".join(letter if letter.isprintable() else ascii(letter)[1:-1] for letter in line)
    head, data, digits = line.partition(" data ")
    authority, space, digits = digits.partition(" ")
    if data and space and head.split(" ")[-1] == "d" and len(digits) > DATA_SHOWN:
        return f"{head}{data}{authority} {digits[:DATA_SHOWN]}… ({len(digits) // 2} bytes)"
    return line if len(line) <= LINE_SHOWN else f"{line[:LINE_SHOWN]}… ({len(line)} characters)"


def check_fits(session: Session, report: model.Report) -> None:
    """Raises a Fault at the first session line that isn't what the report's entry played."""
    for entry in report.entries:
        if entry.line:
            check_entry(session, entry)


def check_entry(session: Session, entry: model.Entry) -> None:
    if entry.line > len(session.lines):
        raise Fault(len(session.lines), f"the session ends here, and entry {entry.number} of the report played line "
                                        f"{entry.line}")
    if report_form(session.words(entry.line))[:len(played_words(entry))] != played_words(entry):
        raise Fault(entry.line, f"the line isn't what entry {entry.number} of the report played, which is "
                                f"`{' '.join(played_words(entry))} ..`")


def played_words(entry: model.Entry) -> list[str]:
    """The words with which the session's line of an entry begins."""
    event = entry.event
    if isinstance(event, model.CallEvent):
        word = "start" if event.word in ("pin", "hold") else event.word
        return ["c", str(entry.actor), word, str(event.call)]
    if isinstance(event, model.StreamEvent):
        word = "data" if event.word in ("response", "bytes") else event.word
        return ["d", word, "-" if event.authority is None else "+" + event.authority]
    return ["d", *event.text().split(" ")]


def report_form(words: list[str]) -> list[str]:
    """The words of a session's line as a report tells them: addresses in lower case, and idle as connecting."""
    if words[:2] == ["d", "endpoint"]:
        return ["connecting" if word == "idle" else word.lower() for word in words]
    return words


def draw(word: int, place: int) -> int:
    """The draw of a word at a place: 0 to 2^32 - 1."""
    return ((word + place * GOLDEN_STEP) % 2**64) >> 32
