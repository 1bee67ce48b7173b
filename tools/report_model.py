"""A report as values: reading it, and writing it back line by line.

`read_report(bytes)` gives a `Report`, or raises a `Fault` with the line and one sentence. `Report.lines()` gives the
lines that were read. docs/REPORTS.md explains the lines; names in the values are unescaped.
"""

from __future__ import annotations

import functools
import re
import urllib.parse
from dataclasses import dataclass, field

KINDS = ("listener", "route", "cluster", "endpoint")
STATES = ("connecting", "ready", "failing")
REASONS = (
    "unreadable", "no-name", "second", "wrong-type", "no-routes", "config-source", "domain", "no-path", "bad-pattern",
    "no-header-match", "fraction", "weights", "many-clusters", "cluster-kind", "no-clusters", "lb-policy", "address",
    "locality-twice", "priority-gap", "bad-escape", "bad-type", "bad-authority", "absent", "no-host", "depth",
    "no-endpoints", "failing",
)
CALLERS = 16
HEADER = "xds-report 1"


class Fault(Exception):
    """Why a text is refused: the line, from 1 (0 where no single line is at fault), and a sentence."""

    def __init__(self, line: int, sentence: str):
        super().__init__(f"line {line}: {sentence}" if line else sentence)
        self.line = line
        self.sentence = sentence


# Escapes: all bytes but ASCII 0x21 to 0x7E, and of these `%`, `,`, `=` and `|`.

UNESCAPED_TEXT = re.compile(r"[!-$&-+\--<>-{}~]*")
UNESCAPED_BYTES = frozenset(range(0x21, 0x7F)) - frozenset(b"%,=|")


@functools.lru_cache(maxsize=65536)
def escape(text: str) -> str:
    """The text as a report has it."""
    if UNESCAPED_TEXT.fullmatch(text):
        return text
    encoded = text.encode("utf-8", "surrogateescape")
    return "".join(chr(byte) if byte in UNESCAPED_BYTES else f"%{byte:02X}" for byte in encoded)


@functools.lru_cache(maxsize=65536)
def unescape(text: str) -> str | None:
    """The text that a report has as `text`, None where no text is escaped so."""
    if UNESCAPED_TEXT.fullmatch(text):
        return text
    unescaped = urllib.parse.unquote_to_bytes(text).decode("utf-8", "surrogateescape")
    return unescaped if escape(unescaped) == text else None


def authority_text(authority: str | None) -> str:
    """`-` for the default authority (None), else `+` and the name."""
    return "-" if authority is None else "+" + escape(authority)


# Events.

@dataclass(frozen=True, slots=True)
class StreamEvent:
    """What happens to an authority's stream: `open`, `lost`, `response` or `bytes`."""
    word: str
    authority: str | None

    def text(self) -> str:
        return f"{self.word} {authority_text(self.authority)}"


@dataclass(frozen=True, slots=True)
class Time:
    ms: int

    def text(self) -> str:
        return f"time {self.ms}"


@dataclass(frozen=True, slots=True)
class EndpointState:
    address: str
    state: str

    def text(self) -> str:
        return f"endpoint {self.address} {self.state}"


@dataclass(frozen=True, slots=True)
class Sweep:
    def text(self) -> str:
        return "sweep"


@dataclass(frozen=True, slots=True)
class CallEvent:
    """A call's `pin`, `hold`, `pick` or `commit`."""
    word: str
    call: int

    def text(self) -> str:
        return f"{self.word} {self.call}"


Event = StreamEvent | Time | EndpointState | Sweep | CallEvent


# Replies.

@dataclass(frozen=True, slots=True)
class Word:
    """A reply of one word, such as `ok`, `closed` or `notheld`."""
    word: str

    def text(self) -> str:
        return self.word


@dataclass(frozen=True, slots=True)
class Verdict:
    """`ack` or `nack` with the kind of the response."""
    word: str
    kind: str

    def text(self) -> str:
        return f"{self.word} {self.kind}"


@dataclass(frozen=True, slots=True)
class TooLong:
    length: int

    def text(self) -> str:
        return f"toolong {self.length}"


@dataclass(frozen=True, slots=True)
class At:
    """A pin's snapshot."""
    snapshot: int

    def text(self) -> str:
        return f"at {self.snapshot}"


@dataclass(frozen=True, slots=True)
class To:
    """A hold: the route's place and the cluster."""
    route: int
    cluster: str
    snapshot: int

    def text(self) -> str:
        return f"to {self.route} {escape(self.cluster)} at {self.snapshot}"


@dataclass(frozen=True, slots=True)
class NoRoute:
    snapshot: int

    def text(self) -> str:
        return f"noroute at {self.snapshot}"


@dataclass(frozen=True, slots=True)
class NoAction:
    route: int
    snapshot: int

    def text(self) -> str:
        return f"noaction {self.route} at {self.snapshot}"


@dataclass(frozen=True, slots=True)
class NoFront:
    reason: str
    snapshot: int

    def text(self) -> str:
        return f"nofront {self.reason} at {self.snapshot}"


@dataclass(frozen=True, slots=True)
class PickedEndpoint:
    """A pick's endpoint: its child, locality and place."""
    address: str
    snapshot: int
    child: int
    locality: int
    place: int

    def text(self) -> str:
        return (f"endpoint {self.address} at {self.snapshot} child {self.child} locality {self.locality} "
                f"place {self.place}")


@dataclass(frozen=True, slots=True)
class Queue:
    snapshot: int

    def text(self) -> str:
        return f"queue at {self.snapshot}"


@dataclass(frozen=True, slots=True)
class Fail:
    reason: str
    snapshot: int

    def text(self) -> str:
        return f"fail {self.reason} at {self.snapshot}"


@dataclass(frozen=True, slots=True)
class Drop:
    category: str
    snapshot: int

    def text(self) -> str:
        return f"drop {escape(self.category)} at {self.snapshot}"


Reply = Word | Verdict | TooLong | At | To | NoRoute | NoAction | NoFront | PickedEndpoint | Queue | Fail | Drop


# Requests, snapshots, entries.

@dataclass(frozen=True, slots=True)
class Key:
    """A resource: its kind and name."""
    kind: str
    name: str

    def text(self) -> str:
        return f"{self.kind}:{escape(self.name)}"


@dataclass(frozen=True, slots=True)
class Request:
    authority: str | None
    kind: str
    version: str
    nonce: str
    names: tuple[str, ...]
    error: str | None
    node: bool

    def text(self) -> str:
        names = ",".join(map(escape, self.names))
        error = "" if self.error is None else f" err={escape(self.error)}"
        node = " node" if self.node else ""
        return (f"req {authority_text(self.authority)} {self.kind} v={escape(self.version)} n={escape(self.nonce)} "
                f"names={names}{error}{node}")


@dataclass(frozen=True, slots=True)
class Front:
    """The configuration's front: the listener, the route configuration and the virtual host's place in it."""
    listener: str
    routes: str
    host: int

    def text(self) -> str:
        return f"{escape(self.listener)},{escape(self.routes)},{self.host}"


@dataclass(frozen=True, slots=True)
class Child:
    """A priority of a leaf. `state` is None where the child isn't there yet, or no longer."""
    leaf: str
    priority: int
    state: str | None
    chosen: bool
    pending: bool
    unused: bool

    def text(self) -> str:
        flags = ("+" if self.pending else "") + ("~" if self.unused else "")
        return f"{'*' if self.chosen else ''}{self.name()}:{self.state or 'none'}{flags}"

    def name(self) -> str:
        return f"{escape(self.leaf)}/{self.priority}"


@dataclass(frozen=True, slots=True)
class Tree:
    """A cluster's balancers: the children that serve, and those of a new tree that waits to take over."""
    children: tuple[Child, ...]
    waiting: tuple[Child, ...] | None = None

    def text(self) -> str:
        serving = ",".join(child.text() for child in self.children)
        return serving if self.waiting is None else serving + "|" + ",".join(child.text() for child in self.waiting)

    def chosen(self) -> Child | None:
        return next((child for child in self.children if child.chosen), None)


@dataclass(frozen=True, slots=True)
class Reason:
    """What stands in place of a front or a tree: why there is none."""
    reason: str

    def text(self) -> str:
        return "!" + self.reason


@dataclass(slots=True)
class Snapshot:
    number: int
    front: Front | Reason
    trees: dict[str, Tree | Reason]

    def text(self) -> str:
        trees = "".join(f" {escape(cluster)}={tree.text()}" for cluster, tree in self.trees.items())
        return f"snap {self.number} front={self.front.text()}{trees}"


@dataclass(slots=True)
class Entry:
    """An entry with what stands under it. `actor` is 0 for the driver, else the caller; `awaited` is the least awaited
    key, None where nothing is awaited or the actor is a caller; `place` is the entry's line in the report."""
    number: int
    line: int
    actor: int
    event: Event
    reply: Reply
    awaited: Key | None
    place: int
    patterns: list[str] = field(default_factory=list)
    requests: list[Request] = field(default_factory=list)
    snapshot: Snapshot | None = None

    def actor_text(self) -> str:
        return f"c{self.actor}" if self.actor else "d"

    def head(self) -> str:
        standing = ""
        if not self.actor:
            standing = f" wait {self.awaited.text()}" if self.awaited else " whole"
        return f"{self.number} {self.line} {self.actor_text()} {self.event.text()} {self.reply.text()}{standing}"

    def lines(self) -> list[str]:
        lines = self.lines_before_snapshot()
        return lines + ["  " + self.snapshot.text()] if self.snapshot else lines

    def lines_before_snapshot(self) -> list[str]:
        lines = [self.head()]
        lines += [f"  pat {escape(pattern)}" for pattern in self.patterns]
        lines += ["  " + request.text() for request in self.requests]
        return lines


@dataclass(slots=True)
class Report:
    entries: list[Entry]
    snapshots: int

    def lines(self) -> list[str]:
        lines = [HEADER]
        for entry in self.entries:
            lines += entry.lines()
        lines.append(f"end {len(self.entries)} {self.snapshots}")
        return lines
