"""The reference program, of which this file alone knows where it stands and what it is made of.

    python3 tools/reference.py              prints the folder of the reference
    python3 tools/reference.py --program    prints the reference program that is called as xds_replay is, and quick

The folder has a reader of sessions, a check of resources, a client that plays sessions, a judge of reports whose actors
act in any order, and random sessions; beside it stand worked sessions. XDS_REFERENCE names another folder than the one
beside this repository, and XDS_YARDSTICK another program. Where there is none, it says where it looked, on standard error
with status 1.
"""

import importlib
import os
import pathlib
import sys

BESIDE = pathlib.Path(__file__).resolve().parent.parent.parent / "shared"
# What the reference calls this client, without what a later part adds.
STAGE = 13


def folder():
    """Where the folder of the reference is or should be, and whether it is there."""
    path = pathlib.Path(os.environ.get("XDS_REFERENCE") or BESIDE / "oracle")
    return path, (path / "oracle.py").exists()


def program():
    """Where the program that is called as xds_replay is or should be, and whether it is there."""
    path = pathlib.Path(os.environ.get("XDS_YARDSTICK") or BESIDE / "yardstick/xds_yardstick")
    return path, path.exists()


def modules_of(folder, *names):
    """Modules of a folder. Here the same names stay those of our own modules, of which some are called the same."""
    ours = {name: sys.modules.pop(name) for name in names if name in sys.modules}
    sys.path.insert(0, str(pathlib.Path(folder).resolve()))
    try:
        return [importlib.import_module(name) for name in names]
    finally:
        sys.path.pop(0)
        for name in names:
            sys.modules.pop(name, None)
        sys.modules.update(ours)


class Reference:
    """The reference program in a folder."""

    def __init__(self, folder):
        self.rows = pathlib.Path(folder).resolve().parent / "rows"
        sys.dont_write_bytecode = True
        sys.setrecursionlimit(10_000)
        check, fuzz, history, legal, patterns, play, report, session, wire = modules_of(
            folder, "check", "fuzz", "history", "legal", "patterns", "play", "report", "session", "wire")
        self.check, self.Asked = check.check, patterns.Asked
        self.URLS, self.Unreadable, self.read = wire.URLS, wire.Unreadable, wire.read
        self.read_session, self.SessionFault, self.room = session.read_session, session.SessionFault, session.room
        self.fuzz, self.play, self.report = fuzz.fuzz, play.play, report.report
        self.History, self.driver_events, self.readable = history.History, session.driver_events, play.readable
        self.legal, self.Illegal = legal.legal, legal.Illegal

    def history(self, text):
        """What playing a session gives."""
        return self.play(self.read_session(text))

    def history_with(self, session, holds):
        """What playing a session gives where the hold of a call that starts at a line stands after a later line, by `holds`."""
        history, events, waiting = self.History(session.boot, session.target, session.host), {}, {}
        for number, event in self.driver_events(session, self.readable):
            events.setdefault(number, []).append(event)
        for line in session.lines:
            kind, *rest = line.event
            if line.caller is None:
                for event in events[line.number]:
                    history.apply(line.number, event)
            elif kind == "start":
                if history.pin(line.caller, line.number, rest[0]) is not None:
                    waiting.setdefault(holds.get(line.number, line.number), []).append(line)
            elif kind == "pick":
                history.pick(line.caller, line.number, *rest)
            else:
                history.commit(line.caller, line.number, *rest)
            for start in waiting.pop(line.number, []):
                history.hold(start.caller, start.number, start.event[1])
        history.apply(0, ("sweep",))
        return history

    def random_session(self, number):
        """The random session of a number."""
        return self.fuzz(number, STAGE)

    def report_of(self, text):
        """The report of a session, or its first fault."""
        try:
            return self.report(self.play(self.read_session(text, STAGE), STAGE))
        except self.SessionFault as fault:
            return f"session line {fault.line}: {fault.cause}\n"

    def fault_of(self, text):
        """The first fault of a session, or None."""
        try:
            self.read_session(text, STAGE)
        except self.SessionFault as fault:
            return f"session line {fault.line}: {fault.cause}"
        return None

    def fault_of_report(self, text, report):
        """Why a report is no legal history of a session, whose actors may act in any order; None where it is one."""
        try:
            self.legal(text, report, STAGE)
        except self.Illegal as fault:
            return str(fault)
        return None

    def worked_sessions(self):
        """The worked sessions beside the reference: the name of each, its text, and its report where there is one of its own.
        (A `.stage` marks a report of a part of the program.)"""
        for path in sorted(self.rows.glob("*.session")):
            own = path.with_suffix(".expected")
            is_own = own.exists() and not path.with_suffix(".stage").exists()
            yield path.stem, path.read_bytes(), own.read_text() if is_own else None


def main():
    if sys.argv[1:] not in ([], ["--program"]):
        sys.exit(__doc__)
    path, is_there = program() if sys.argv[1:] else folder()
    if not is_there:
        sys.exit(f"there is no reference program at {path}")
    print(path)


if __name__ == "__main__":
    main()
