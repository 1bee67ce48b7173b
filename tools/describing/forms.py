"""The lines of a session: their words are read, and written."""

import re
from urllib.parse import quote_from_bytes, unquote_to_bytes

from describing.places import Problem

HEAD = ("xds-session 1", "boot", "target", "callers")
STATES = ("idle", "connecting", "ready", "failing")
FORMS = {("d", "open"): 1, ("d", "data"): 2, ("d", "lost"): 1, ("d", "time"): 1, ("d", "endpoint"): 2,
         ("d", "sweep"): 0, ("c", "pick"): 2, ("c", "commit"): 1}
MOST_WORD, MOST_TIME, MOST_CALL = 2**64 - 1, 10**12, 65_535
PRINTED = "".join(map(chr, range(0x21, 0x7F))).replace("%", "")


class Line:
    """A line: its number, the line that it waits for, its verb, its caller (0 is the driver) and its further words."""

    def __init__(self, number, gate, caller, verb, words):
        self.number, self.gate, self.caller, self.verb, self.words = number, gate, caller, verb, words


class Session:
    """A session's text: its head, its lines from 5 on, and whether the last one ends with a line feed."""

    def __init__(self, boot, target, callers, lines, ends):
        self.boot, self.target, self.callers, self.lines, self.ends = boot, target, callers, lines, ends


def number_of(text, most):
    """The number of a decimal text without leading zeros; None where it has none, or one above the greatest."""
    value = int(text) if re.fullmatch("0|[1-9][0-9]{0,19}", text) else None
    return value if value is not None and value <= most else None


def read_session(data):
    """The session of the bytes of its text. A problem's path is the line's number."""
    texts = data.split(b"\n")
    ends = texts[-1] == b"" and len(texts) > 1
    texts = texts[:-1] if ends else texts
    lines = []
    for number, raw in enumerate(texts, 1):
        try:
            lines.append(raw.decode())
        except UnicodeDecodeError:
            raise Problem((number,), "this line isn't UTF-8") from None
    for number, (word, line) in enumerate(zip(HEAD, lines), 1):
        if line != word if number == 1 else not line.startswith(word + " "):
            raise Problem((number,), f"this line has to {'be' if number == 1 else 'begin with'} `{word}`")
    if len(lines) < 4:
        raise Problem((len(lines),), "a session has at least four lines")
    boot, target, callers = (line.partition(" ")[2] for line in lines[1:4])
    count = number_of(callers, 16)
    if not count:
        raise Problem((4,), "the number of callers is 1 to 16")
    return Session(boot, target, count, [read_line(n, text) for n, text in enumerate(lines[4:], 5)], ends)


def read_line(number, text):
    """The line of a text."""
    words, gate = text.split(" "), None
    if words[0].startswith("@"):
        gate = number_of(words.pop(0)[1:], number - 1)
        if gate is None or gate < 5:
            raise Problem((number,), "the number after @ is that of an earlier line, 5 or more")
    form = words[0] if words else ""
    caller = 0
    if form == "c" and len(words) > 1:
        caller = number_of(words.pop(1), 16)
        if not caller:
            raise Problem((number,), "a caller is a number from 1 to 16")
    verb, rest = words[1] if len(words) > 1 else "", words[2:]
    if not (FORMS.get((form, verb)) == len(rest) or (form, verb) == ("c", "start") and len(rest) >= 3):
        raise Problem((number,), "this line has none of the forms of a session")
    return Line(number, gate, caller, verb, rest)


def header_value(text):
    """The value of a header as a line has it, if this is its usual spelling, else None."""
    try:
        value = unquote_to_bytes(text).decode()
    except UnicodeDecodeError:
        return None
    return value if escape(value) == text else None


def is_escaped(text):
    """Whether a line's text is UTF-8 when its escapes are read."""
    try:
        unquote_to_bytes(text).decode()
    except UnicodeDecodeError:
        return False
    return True


def escape(value):
    """A header's value as a line has it."""
    return quote_from_bytes(value.encode(), safe=PRINTED)


def is_address(text):
    """Whether a text is a numeric host and a port."""
    host, colon, port = text.rpartition(":")
    if not colon or not number_of(port, 65_535):
        return False
    if host.startswith("[") and host.endswith("]"):
        return is_ipv6(host[1:-1])
    parts = host.split(".")
    return len(parts) == 4 and all(number_of(part, 255) is not None for part in parts)


def is_ipv6(text):
    """Whether a text is eight groups of hexadecimal digits, or at most seven with one `::`."""
    halves = text.split("::")
    groups = [half.split(":") if half else [] for half in halves]
    count = sum(map(len, groups))
    good = all(re.fullmatch("[0-9a-fA-F]{1,4}", group) for half in groups for group in half)
    return good and (len(halves) == 1 and count == 8 or len(halves) == 2 and count <= 7)
