#!/usr/bin/env python3
"""tools/try_build.py NAME: builds a program of this repository without any proof, and prints the path at which it is kept.

`rt try` builds a program, runs it, here on no input, and then removes it. What was built is kept in out/unproved/, and used
again while the sum of its sources, and the kit's, stay the same.

The short way is taken first: `rt try` of a copy of the sources without contracts (bare_sources.py), by a kit of links
that compiles in parts side by side and without the address sanitizer, and keeps the program (linked_kit.py). The kit doesn't
promise that its files lie where that needs them. So where there is no such kit, or the short way builds nothing, `rt try` is
called as the kit documents it. Then the program is linked to out/unproved/ while it runs, and where that comes too late, a
script stands in its place that runs `rt try` each time.
"""

import hashlib
import os
import pathlib
import subprocess
import sys
import tempfile
import time

import bare_sources
import crates
import linked_kit

KEPT = crates.HOME / "out/unproved"
PAUSE, SHORT_PAUSE = 0.1, 0.005
SCRIPT = '#!/bin/sh\ncd "{folder}" && exec rt try --steps 1 -- "$@"\n'


def sum_of_sources(name):
    """A sum over the kit's line and the code of the crates that a program is made of."""
    known = crates.crates_of_repository()
    total = hashlib.sha256(subprocess.run(["rt", "version"], stdout=subprocess.PIPE, check=True).stdout)
    for it in crates.below(known, name):
        total.update(known[it].line.encode())
        for file in sorted((crates.HOME / "crates" / it / "src").rglob("*.rt")):
            total.update(f"\n{file.relative_to(crates.HOME)}\n".encode() + file.read_bytes())
    return total.hexdigest()


def pause_of(room):
    """How long to wait for the next look: short as soon as `rt try` has a folder to compile in."""
    try:
        return SHORT_PAUSE if any(it.is_dir() for it in room.glob("*/*")) else PAUSE
    except OSError:
        return SHORT_PAUSE  # One was removed just now.


def link_program(room, kept):
    """Links the program that stands in the room of `rt try`, if one does."""
    spare = kept.with_suffix(".new")
    try:
        for found in room.glob("*/*/program"):
            spare.unlink(missing_ok=True)
            spare.hardlink_to(found)
            spare.replace(kept)
        spare.unlink(missing_ok=True)  # (Two links of one file are left as they are.)
    except OSError:
        pass  # It was removed just now.


def tell_time(start):
    """Tells on a terminal for how many seconds this has been going on."""
    if sys.stderr.isatty():
        print(f"\r{time.monotonic() - start:.0f} s ", end="", file=sys.stderr, flush=True)


def words_of(name):
    """The words that a program is given where it is tried. Of a file in its folder data/ the whole path is given."""
    folder = crates.HOME / "crates" / name
    words = (folder / "args").read_text().split() if (folder / "args").exists() else []
    return [str(folder / "data" / it) if (folder / "data" / it).exists() else it for it in words]


def try_once(rt, folder, look=lambda room: None):
    """Runs `rt try` in a crate's folder, and meanwhile looks at the room that it works in again and again; answers what it said,
    and whether the program ran."""
    with tempfile.TemporaryDirectory(prefix="try-", dir=KEPT) as room, tempfile.TemporaryFile("w+") as said:
        how = {"stdin": subprocess.DEVNULL, "stdout": subprocess.DEVNULL, "stderr": said}
        environment = {**os.environ, "TMPDIR": room}
        start = time.monotonic()
        words = [rt, "try", "--steps", "1", "--", *words_of(folder.name)]
        run = subprocess.Popen(words, cwd=folder, env=environment, **how)
        while run.poll() is None:
            look(pathlib.Path(room))
            tell_time(start)
            time.sleep(pause_of(pathlib.Path(room)))
        if sys.stderr.isatty():
            print("\r", end="", file=sys.stderr)
        said.seek(0)
        text = said.read()
    return text, "\nrun=ended " in "\n" + text


def try_shortly(kit, kept):
    """Builds a program the short way; answers why it isn't built, or nothing where it is."""
    name, known = kept.name, crates.crates_of_repository()
    with tempfile.TemporaryDirectory(prefix="short-", dir=KEPT) as room:
        room = pathlib.Path(room)
        try:
            bare_sources.copy_bare(crates.HOME, [known[it] for it in crates.below(known, name)], room / "sources")
            rt = linked_kit.link_kit(kit, room / "kit", kept)
            said, ran = try_once(rt, room / "sources/crates" / name)
        except OSError as fault:
            return str(fault)
    return "" if ran and kept.exists() else first_fault(said)


def first_fault(said):
    """The line of what `rt try` said that tells what is wrong, or else its first."""
    lines = [it for it in said.splitlines() if it.strip()]
    return next((it for it in lines if "error" in it), (lines or ["it says nothing"])[0])


def try_in_full(name, kept):
    """Builds a program as the kit documents it, or ends with what it said."""
    folder = crates.HOME / "crates" / name
    said, ran = try_once("rt", folder, lambda room: link_program(room, kept))
    if not ran:
        sys.exit(f"{said}tools/built.sh: {name} isn't built")
    if not kept.exists():
        kept.write_text(SCRIPT.format(folder=folder))
        kept.chmod(0o755)


def build(name):
    """The path of the program, which is built where no kept one is of the same sources."""
    kept, stamp, total = KEPT / name, KEPT / f"{name}.sum", sum_of_sources(name)
    if kept.exists() and stamp.exists() and stamp.read_text() == total:
        print(f"tools/built.sh: {name} is one that was built without proof", file=sys.stderr)
        return kept
    KEPT.mkdir(parents=True, exist_ok=True)
    stamp.unlink(missing_ok=True)
    kept.unlink(missing_ok=True)
    kit = linked_kit.installed_kit()
    took = "about a minute, or up to three on a busy machine," if kit else "some three minutes"
    print(f"tools/built.sh: {name} is built without proof, which takes {took}", file=sys.stderr)
    fault = try_shortly(kit, kept) if kit else "there is no kit for it"
    if fault:
        if kit:
            print(f"tools/built.sh: the short way fails ({fault}); the long one takes some three minutes", file=sys.stderr)
        kept.unlink(missing_ok=True)
        try_in_full(name, kept)
    stamp.write_text(total)
    return kept


if __name__ == "__main__":
    if len(sys.argv) != 2:
        sys.exit("usage: python3 tools/try_build.py NAME")
    try:
        print(build(sys.argv[1]))
    except KeyboardInterrupt:
        sys.exit(130)
