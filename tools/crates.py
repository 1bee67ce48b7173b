#!/usr/bin/env python3
"""tools/crates.py NAME: the crates that a crate stands on, lowest first, and it last, each on a line.

With `--ways` in place of a name: how many ways lead down from all crates together, and from each of the ten that have most.
A way is a crate, or a crate and a way of one that its line in crates.txt lists. A kit that goes through each way anew takes
a millisecond or two for each, more than once, before it proves anything.

As a module it reads crates.txt: `read_crates` gives its crates in order, with the group that a comment
`# == LAYER: SENTENCE` above them names.
"""

import dataclasses
import pathlib
import re
import sys

HOME = pathlib.Path(__file__).resolve().parent.parent
GROUP = re.compile(r"# == ([^:]+): (.+)")
MOST_SHOWN = 10


@dataclasses.dataclass
class Group:
    """A layer of crates, and what it is in one sentence."""

    name: str
    sentence: str


@dataclasses.dataclass
class Crate:
    """A crate, the libraries of its line in crates.txt (those of the kit too), its line, and its group, if one is named."""

    name: str
    uses: list
    line: str
    group: Group | None


def read_crates(text):
    """The crates of crates.txt by name, in the order of the file."""
    crates, group = {}, None
    for line in text.splitlines():
        found = GROUP.fullmatch(line.strip())
        if found:
            group = Group(*found.groups())
        words, _, uses = line.split("#")[0].partition(":")
        if words.strip():
            name = words.split()[0]
            crates[name] = Crate(name, uses.split(), line.rstrip(), group)
    return crates


def crates_of_repository():
    """The crates of this repository."""
    return read_crates((HOME / "crates.txt").read_text())


def below(crates, name):
    """The crates that this one stands on, lowest first, and it last."""
    order = {}
    stack = [name]
    while stack:
        top = stack[-1]
        waiting = [it for it in crates[top].uses if it in crates and it not in order]
        if waiting:
            stack.append(waiting[0])
        else:
            order[stack.pop()] = True
    return list(order)


def count_ways(crates):
    """How many ways lead down from each crate."""
    ways = {}
    for top in crates:
        for name in below(crates, top):
            if name not in ways:
                ways[name] = 1 + sum(ways[it] for it in crates[name].uses if it in crates)
    return ways


def show_ways(crates):
    """Writes how many ways lead down from all crates, and from those that have most."""
    ways = count_ways(crates)
    print(f"{sum(ways.values())} all")
    for name in sorted(ways, key=ways.get, reverse=True)[:MOST_SHOWN]:
        print(f"{ways[name]} {name}")


def main():
    crates = crates_of_repository()
    if sys.argv[1:] == ["--ways"]:
        show_ways(crates)
        return
    if len(sys.argv) != 2 or sys.argv[1] not in crates:
        sys.exit("usage: python3 tools/crates.py NAME|--ways, where NAME is a crate of crates.txt")
    print("\n".join(below(crates, sys.argv[1])))


if __name__ == "__main__":
    main()
