#!/usr/bin/env python3
"""Sessions from readable descriptions, and back.

    session.py shop.yaml                         the session of a description
    session.py --explain first_path.session      the description of a session
    session.py --from-dump config_dump.json      a description of a config dump's resources, to begin with
    session.py --from-responses - recorded.bin   the data lines of recorded responses, or of a capture of gRPC

A description is YAML or JSON: docs/DESCRIPTIONS.md has its format. Resources stand in it in the proto3 JSON mapping,
as config dumps, grpcdebug and control planes print them; fields that the client doesn't read are left out of the
session, and named on standard error. Needed are protoc, and Python's modules google.protobuf and yaml (Debian's
packages protobuf-compiler, python3-protobuf and python3-yaml).

The status is 0, or 1 where something isn't installed or can't be written, or 2 where the input or the words are wrong.
"""

import argparse
import importlib.util
import os
import pathlib
import shutil
import sys

# The system's own Python, which has the modules of Debian's packages.
DEBIAN = shutil.which("python3", path=os.defpath)

sys.path.insert(0, str(pathlib.Path(__file__).resolve().parent))
from describing import build, explain, from_dump, layout, recorded  # noqa: E402
from describing.messages import Messages  # noqa: E402
from describing.places import Document, Missing, Problem, read_document  # noqa: E402


def words():
    """The words of the command line."""
    about, _, more = __doc__.partition("\n\n")
    parser = argparse.ArgumentParser(prog="session.py", description=about, epilog=more,
                                     formatter_class=argparse.RawDescriptionHelpFormatter)
    what = parser.add_mutually_exclusive_group()
    what.add_argument("--explain", action="store_true", help="FILE is a session; write its description")
    what.add_argument("--from-dump", action="store_true",
                      help="FILE is a config dump; write a description to begin with")
    what.add_argument("--from-responses", metavar="AUTHORITY",
                      help="FILE has recorded responses; write their data lines, for - (the default authority) or "
                      "+NAME")
    parser.add_argument("--framing", choices=recorded.FRAMINGS,
                        help="how recorded responses are parted: in HTTP/2 (what the server sent on a captured "
                        "connection), by gRPC frames, four bytes of length, a varint, or not at all (a single one); "
                        "else it is found out")
    parser.add_argument("--json", action="store_true", help="write a description as JSON, and not as YAML")
    parser.add_argument("-o", "--output", metavar="FILE", help="write to this file, and not to standard output")
    parser.add_argument("file", metavar="FILE", help="what is read; - is standard input")
    given = parser.parse_args()
    if given.framing and given.from_responses is None:
        parser.error("--framing goes with --from-responses")
    if given.json and not (given.explain or given.from_dump):
        parser.error("--json goes with --explain and --from-dump")
    if given.from_responses is not None and given.from_responses != "-" and not given.from_responses.startswith("+"):
        parser.error("an authority is - (the default one) or +NAME")
    return given


def read_file(name):
    """The bytes of a file, and its name as faults tell it."""
    if name == "-":
        return sys.stdin.buffer.read(), "standard input"
    return pathlib.Path(name).read_bytes(), name


def make_output(given, data, name):
    """What is to be written, as bytes."""
    if given.from_responses is not None:
        lines = recorded.data_lines(given.from_responses, data, given.framing)
        return "".join(line + "\n" for line in lines).encode()
    messages = Messages()
    text = layout.json_text if given.json else layout.yaml_text
    if given.explain:
        try:
            return text(*explain.describe(name, data, messages)).encode()
        except Problem as problem:
            raise Problem((), problem.sentence, Document(f"{name}:{problem.path[0]}", None, {})) from None
    document = read_document(name, data)
    try:
        made = text(*from_dump.description(document, messages)).encode() if given.from_dump \
            else build.Builder(document, messages).session()
    except Problem as problem:
        problem.document = problem.document or document
        raise
    for what, (other, path, count) in messages.left_out.seen.items():
        times = f" ({count} times)" if count > 1 else ""
        print(f"{(other or document).place(path)}left out: {what}{times}", file=sys.stderr)
    return made


def ensure_modules():
    """Goes on with Debian's Python where this one lacks the modules that Debian's packages have."""
    lacks = any(importlib.util.find_spec(name) is None for name in ("google", "yaml"))
    if lacks and DEBIAN and os.path.realpath(sys.executable) != os.path.realpath(DEBIAN):
        os.execv(DEBIAN, [DEBIAN, *sys.argv])


def write(given, out):
    """Writes what is made; the status."""
    try:
        if given.output:
            pathlib.Path(given.output).write_bytes(out)
        else:
            sys.stdout.buffer.write(out)
            sys.stdout.buffer.flush()
    except BrokenPipeError:
        os.dup2(os.open(os.devnull, os.O_WRONLY), sys.stdout.fileno())
        return 1
    except OSError as fault:
        print(f"session.py: {given.output or 'standard output'}: {fault.strerror}", file=sys.stderr)
        os.dup2(os.open(os.devnull, os.O_WRONLY), sys.stdout.fileno())
        return 1
    return 0


def main():
    ensure_modules()
    given = words()
    name = given.file
    try:
        data, name = read_file(given.file)
        return write(given, make_output(given, data, name))
    except Problem as problem:
        place = problem.document.place(problem.path) if problem.document else f"{name}: "
        print(f"session.py: {place}{problem.sentence}", file=sys.stderr)
        return 2
    except Missing as missing:
        print(f"session.py: {missing}", file=sys.stderr)
        return 1
    except OSError as fault:
        print(f"session.py: {name}: {fault.strerror}", file=sys.stderr)
        return 2


if __name__ == "__main__":
    sys.exit(main())
