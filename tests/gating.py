"""tests/gating.py <SESSION >GATED: gives a session gates by which its lines are played in the order of the file.

The driver and each caller are played on a thread of their own, so the entries of different actors stand in a report in any
order that the gates leave. What compares whole reports with those that were made in the order of the file plays the
session with more gates: each line of another actor than the line before it waits for that line, in place of what it waited for.

That leaves one order. A line begins after the line before it has ended: where both are of one actor, since an actor plays
its lines one after another, and else by its gate. So the lines are played one after another from line 5 on, and a gate
that was taken away is met too, since it names an earlier line. A report shows no gates, so it is byte for byte that of
the session as it was, played in the order of the file.

Only sessions that are played are to be gated. One that is refused is played as it is, since a wrong gate is one of its
faults. A session of the greatest size may have no room for the gates, which take up to eight bytes a line.
"""

import sys

FIRST = 5  # the first line that an actor plays


def gated(session: bytes) -> bytes:
    """The session with gates that leave one order of its lines, that of the file."""
    if b"\nc " not in session and b" c " not in session:
        return session  # (all lines are the driver's)
    lines, before = session.split(b"\n"), None
    for number, line in enumerate(lines[FIRST - 1:], FIRST):
        if not line:
            break  # (what stands behind the last line feed)
        rest = line.partition(b" ")[2] if line.startswith(b"@") else line
        actor = actor_of(rest)
        if before not in (None, actor):
            lines[number - 1] = b"@%d %s" % (number - 1, rest)
        before = actor
    return b"\n".join(lines)


def actor_of(line):
    """The actor of a line without its gate: `d`, or `c` with the caller's number."""
    words = line.split(b" ", 2)
    return words[:1] if words[0] == b"d" else words[:2]


if __name__ == "__main__":
    sys.stdout.buffer.write(gated(sys.stdin.buffer.read()))
