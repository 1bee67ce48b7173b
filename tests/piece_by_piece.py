"""tests/piece_by_piece.py PROGRAM: hands sessions to a program one byte at a time, and takes its report so too.

The session comes by a pipe in packet mode (`O_DIRECT`, see pipe(2)): each byte is written alone, and each read of the program
gets one byte, however many it asks for. All examples are played so, gated into the order of their lines. The reports are byte
for byte those of examples/, and a session that is refused has its message and no report.
"""

import os
import pathlib
import subprocess
import sys
import threading

from gating import gated

EXAMPLES = pathlib.Path(__file__).resolve().parent.parent / "examples"
REFUSED = [("cut in its last line", b"d swee", b"xds_replay: session line 5: word\n"),
           ("of another line", b"d swept\nd sweep\n", b"xds_replay: session line 5: word\n"),
           ("that is no text", b"d sweep\n\xff", b"xds_replay: session line 6: text\n")]


def feed(pipe, data):
    """Writes bytes one by one, up to the end or until nobody takes them."""
    try:
        for place in range(len(data)):
            os.write(pipe, data[place:place + 1])
    except BrokenPipeError:
        pass
    os.close(pipe)


def taken(pipe):
    """What comes from a pipe, taken byte by byte."""
    return b"".join(iter(lambda: os.read(pipe.fileno(), 1), b""))


def played(program, data):
    """The status, the report and the message of a session."""
    source, pipe = os.pipe2(os.O_DIRECT | os.O_CLOEXEC)
    run = subprocess.Popen([program, "run"], stdin=source, stdout=subprocess.PIPE, stderr=subprocess.PIPE, bufsize=0)
    os.close(source)
    feeder = threading.Thread(target=feed, args=(pipe, data))
    feeder.start()
    with run:
        report, message = taken(run.stdout), taken(run.stderr)
    feeder.join()
    return run.returncode, report, message


def cases():
    """Each session by its name, with the status, the report and the message that are wanted."""
    for path in sorted(EXAMPLES.glob("*.session")):
        yield path.stem, gated(path.read_bytes()), (0, path.with_suffix(".expected").read_bytes(), b"")
    for name, last, message in REFUSED:
        yield f"a session {name}", (EXAMPLES / "no_events.session").read_bytes() + last, (3, b"", message)


def main():
    program, good, bad = pathlib.Path(sys.argv[1]).resolve(), 0, 0
    for name, data, wanted in cases():
        got = played(program, data)
        good, bad = good + (got == wanted), bad + (got != wanted)
        if got != wanted:
            print(f"piece_by_piece: {name}: {got}, where {wanted} is wanted"[:600])
    print(f"piece_by_piece: {good} good, {bad} bad")
    return bad > 0


if __name__ == "__main__":
    sys.exit(main())
