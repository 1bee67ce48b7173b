"""The programs that play sessions, as the scripts of hostile use run them: how each is called, and what its ends mean.

`xds_replay` has a status for each end; `probe_session` reads a session, and tells its first fault, and no more. A reference
program that is called as `xds_replay` is (with the word `run`) can be compared with.
"""

import dataclasses
import os
import pathlib
import re
import subprocess

HOME = pathlib.Path(__file__).resolve().parent.parent
READER = "probe_session"
ENDS = {"session": 3, "read fault": 4, "write fault": 5, "out of memory": 6}
FAULT = re.compile(r"session (line \d+: [a-z]+)")


@dataclasses.dataclass
class Player:
    """A program that plays sessions, or reads them: its path, and whether it is the one that reads."""

    path: str
    is_reader: bool = False

    @property
    def command(self):
        """The words that play a session from standard input."""
        return [self.path] if self.is_reader else [self.path, "run"]

    def end_of(self, status, err):
        """What an end says: `done`, `session line N: CAUSE`, `read fault`, `write fault` or `out of memory`; else what is
        wrong with it."""
        text = err.decode(errors="replace")
        if status == 0:
            return "done" if not text else f"status 0, but {text.strip()!r} is told"
        said = text.partition(": ")[2].removesuffix("\n")
        kind = "session" if FAULT.fullmatch(said) else said
        if kind in ENDS and status == ENDS[kind]:
            return said
        return f"status {status} with {text[:200]!r}"

    def play(self, text, seconds=60):
        """The end and the report of a session; `no end` where there is none in so many seconds."""
        try:
            ran = run(self.command, text, seconds)
        except subprocess.TimeoutExpired:
            return "no end", b""
        if self.is_reader and ran.returncode == 0 and ran.stdout.startswith(b"fault "):
            _, line, cause = ran.stdout.decode().split()
            return f"session line {line}: {cause}", b""
        return self.end_of(ran.returncode, ran.stderr), ran.stdout


def run(command, given, seconds):
    """Runs a command on these bytes for at most so many seconds. They stand in a file, since subprocess would fill a pipe by
    4,096 bytes at a time."""
    with open(os.memfd_create("given"), "w+b") as file:
        file.write(given)
        file.seek(0)
        return subprocess.run(command, stdin=file, capture_output=True, timeout=seconds, check=False)


def built(name):
    """A program of this repository, which is built without proof where no newer one is there."""
    ran = subprocess.run(["bash", HOME / "tools/built.sh", "--unproved", name], stdout=subprocess.PIPE, check=True, text=True)
    return Player(ran.stdout.strip(), name == READER)
