"""Reads a report, line by line, or says what is wrong with it and where."""

from __future__ import annotations

import functools
import re

import report_model as model
from report_model import Fault

LINE = re.compile(rb"[ -~]*")
NUMBER = re.compile(r"0|[1-9][0-9]{0,19}")
CHILD = re.compile(r"(.*)/(0|[1-9][0-9]{0,9}):(none|connecting|ready|failing)(\+?)(~?)")
ADDRESS = re.compile(r"([0-9.]+|\[[0-9a-f:]+\]):[1-9][0-9]*")
STREAM_REPLIES = {
    "open": ("ok",), "lost": ("ok", "closed"), "response": ("ignored", "unreadable", "closed"),
    "bytes": ("ok", "closed", "compressed", "ended"),
}
CALL_REPLIES = {"pin": ("nosnapshot",), "hold": (), "pick": ("notheld",), "commit": ("released", "notheld")}


class Words:
    """The words of one line, taken one after another."""

    def __init__(self, line: int, text: str):
        self.line = line
        self.words = text.split(" ")
        self.place = 0

    def fault(self, sentence: str) -> Fault:
        return Fault(self.line, sentence)

    def at_end(self) -> bool:
        return self.place == len(self.words)

    def take(self, what: str) -> str:
        if self.at_end():
            raise self.fault(f"the line ends where {what} should stand")
        self.place += 1
        return self.words[self.place - 1]

    def one_of(self, words: tuple[str, ...], what: str) -> str:
        word = self.take(what)
        if word not in words:
            raise self.fault(f"`{word}` stands where {what} should stand")
        return word

    def number(self, what: str) -> int:
        return self.number_of(self.take(what), what)

    def number_of(self, word: str, what: str) -> int:
        if not NUMBER.fullmatch(word):
            raise self.fault(f"`{word}` isn't a number, and {what} should stand there")
        return int(word)

    def unescape(self, word: str, what: str) -> str:
        text = model.unescape(word)
        if text is None:
            raise self.fault(f"`{word}` isn't escaped as a report escapes {what}")
        return text

    def text(self, what: str) -> str:
        return self.unescape(self.take(what), what)

    def field(self, name: str) -> str:
        word = self.take(f"`{name}=`")
        if not word.startswith(name + "="):
            raise self.fault(f"`{word}` stands where `{name}=` should stand")
        return word[len(name) + 1:]

    def authority(self) -> str | None:
        word = self.take("an authority")
        if word == "-":
            return None
        if not word.startswith("+"):
            raise self.fault(f"`{word}` isn't an authority, which is `-` or `+` and a name")
        return self.unescape(word[1:], "an authority")

    def address(self) -> str:
        word = self.take("an address")
        if not ADDRESS.fullmatch(word):
            raise self.fault(f"`{word}` isn't an address with its port")
        return word

    def end(self) -> None:
        if not self.at_end():
            raise self.fault(f"`{self.words[self.place]}` stands after the end of the line's form")


def read_report(data: bytes) -> model.Report:
    """The report that the bytes are, else a Fault."""
    return Reader().read(texts(data))


def texts(data: bytes) -> list[str]:
    """The lines, without their line feeds."""
    if not data:
        raise Fault(0, "the report is empty")
    lines = data.split(b"\n")
    if lines.pop():
        raise Fault(len(lines) + 1, "the last line has no line feed, so the report was cut off")
    return [decode(place, line) for place, line in enumerate(lines, 1)]


def decode(place: int, line: bytes) -> str:
    if not LINE.fullmatch(line):
        raise Fault(place, "the line has a byte that a report writes as an escape, such as a carriage return")
    return line.decode("ascii")


class Reader:
    """What was read so far: the entries, the number of snapshots, and the clusters that were asked for."""

    def __init__(self) -> None:
        self.entries: list[model.Entry] = []
        self.snapshots = 0
        self.clusters: set[str] = set()

    def read(self, lines: list[str]) -> model.Report:
        head = lines[0]
        if head.startswith("load "):
            raise Fault(1, "this is what `load` writes, the totals of a run, and not a report")
        if head != model.HEADER:
            raise Fault(1, f"a report begins with the line `{model.HEADER}`")
        for place, line in enumerate(lines[1:], 2):
            if line.startswith("end "):
                return self.end(Words(place, line), len(lines))
            if line.startswith("  "):
                self.below(Words(place, line[2:]))
            else:
                self.entries.append(self.entry(Words(place, line)))
        raise Fault(len(lines), "the report stops here, without its `end` line")

    def end(self, words: Words, lines: int) -> model.Report:
        words.take("`end`")
        entries, snapshots = words.number("the number of entries"), words.number("the number of snapshots")
        words.end()
        if entries != len(self.entries):
            raise words.fault(f"`end` counts {entries} entries, and {len(self.entries)} stand above it")
        if snapshots != self.snapshots:
            raise words.fault(f"`end` counts {snapshots} snapshots, and {self.snapshots} stand above it")
        if words.line != lines:
            raise Fault(words.line + 1, "a line stands after the `end` line")
        return model.Report(self.entries, self.snapshots)

    # Entries.

    def entry(self, words: Words) -> model.Entry:
        number = words.number("the entry's number")
        if number != len(self.entries) + 1:
            raise words.fault(f"the entry's number is {number}, and {len(self.entries) + 1} comes next")
        line = words.number("the session's line")
        actor = self.actor(words)
        if actor:
            event = model.CallEvent(words.one_of(tuple(CALL_REPLIES), "a caller's event"), words.number("a call"))
            reply = self.call_reply(words, event.word)
            awaited = None
        else:
            event = self.driver_event(words)
            reply = self.driver_reply(words, event)
            awaited = self.standing(words)
        words.end()
        return model.Entry(number, line, actor, event, reply, awaited, words.line)

    @staticmethod
    def actor(words: Words) -> int:
        word = words.take("an actor")
        if word == "d":
            return 0
        if word[:1] == "c" and NUMBER.fullmatch(word[1:]) and 1 <= int(word[1:]) <= model.CALLERS:
            return int(word[1:])
        raise words.fault(f"`{word}` isn't an actor, which is `d` or `c1` to `c{model.CALLERS}`")

    @staticmethod
    def driver_event(words: Words) -> model.Event:
        word = words.one_of((*STREAM_REPLIES, "time", "endpoint", "sweep"), "an event of the driver")
        if word in STREAM_REPLIES:
            return model.StreamEvent(word, words.authority())
        if word == "time":
            return model.Time(words.number("the time in milliseconds"))
        if word == "endpoint":
            return model.EndpointState(words.address(), words.one_of(model.STATES, "a state"))
        return model.Sweep()

    @staticmethod
    def driver_reply(words: Words, event: model.Event) -> model.Reply:
        word = words.take("a reply")
        kind = event.word if isinstance(event, model.StreamEvent) else None
        if kind == "response" and word in ("ack", "nack"):
            return model.Verdict(word, words.one_of(model.KINDS, "a kind of resource"))
        if kind == "bytes" and word == "toolong":
            return model.TooLong(words.number("the frame's length"))
        if word in STREAM_REPLIES.get(kind, ("ok",)):
            return model.Word(word)
        raise words.fault(f"`{word}` isn't a reply to `{event.text()}`")

    @staticmethod
    def standing(words: Words) -> model.Key | None:
        if words.one_of(("whole", "wait"), "`whole` or `wait`") == "whole":
            return None
        word = words.take("the awaited resource")
        kind, colon, name = word.partition(":")
        if kind not in model.KINDS or not colon:
            raise words.fault(f"`{word}` isn't a resource, which is a kind, `:` and a name")
        return model.Key(kind, words.unescape(name, "a name"))

    def call_reply(self, words: Words, event: str) -> model.Reply:
        word = words.take("a reply")
        if word in CALL_REPLIES[event]:
            return model.Word(word)
        if (event, word) == ("pin", "at"):
            return model.At(self.known_snapshot(words))
        if event == "hold":
            return self.hold_reply(words, word)
        if event == "pick":
            return self.pick_reply(words, word)
        raise words.fault(f"`{word}` isn't a reply to `{event}`")

    def hold_reply(self, words: Words, word: str) -> model.Reply:
        if word == "to":
            return model.To(words.number("the route's place"), words.text("a cluster"), self.at(words))
        if word == "noroute":
            return model.NoRoute(self.at(words))
        if word == "noaction":
            return model.NoAction(words.number("the route's place"), self.at(words))
        if word == "nofront":
            return model.NoFront(words.one_of(model.REASONS, "a reason"), self.at(words))
        raise words.fault(f"`{word}` isn't a reply to `hold`")

    def pick_reply(self, words: Words, word: str) -> model.Reply:
        if word == "endpoint":
            return model.PickedEndpoint(words.address(), self.at(words), *(self.after(words, name)
                                                                  for name in ("child", "locality", "place")))
        if word == "queue":
            return model.Queue(self.at(words))
        if word == "fail":
            return model.Fail(words.one_of(model.REASONS, "a reason"), self.at(words))
        if word == "drop":
            return model.Drop(words.text("a category"), self.at(words))
        raise words.fault(f"`{word}` isn't a reply to `pick`")

    @staticmethod
    def after(words: Words, name: str) -> int:
        words.one_of((name,), f"`{name}`")
        return words.number(f"the {name}")

    def at(self, words: Words) -> int:
        words.one_of(("at",), "`at`")
        return self.known_snapshot(words)

    def known_snapshot(self, words: Words) -> int:
        number = words.number("a snapshot")
        if not 1 <= number <= self.snapshots:
            raise words.fault(f"snapshot {number} isn't published before this line")
        return number

    # What stands below an entry.

    def below(self, words: Words) -> None:
        word = words.one_of(("pat", "req", "snap"), "`pat`, `req` or `snap`")
        if not self.entries or self.entries[-1].actor:
            raise words.fault(f"a `{word}` line stands below no entry of the driver")
        entry = self.entries[-1]
        if entry.snapshot or (word == "pat" and entry.requests):
            raise words.fault("below an entry stand its patterns, then its requests, then its one snapshot")
        if word == "pat":
            entry.patterns.append(words.text("a pattern"))
        elif word == "req":
            entry.requests.append(self.request(words))
        else:
            entry.snapshot = self.snapshot(words)
        words.end()

    def request(self, words: Words) -> model.Request:
        authority, kind = words.authority(), words.one_of(model.KINDS, "a kind of resource")
        version = words.unescape(words.field("v"), "a version")
        nonce = words.unescape(words.field("n"), "a nonce")
        list_of_names = words.field("names")
        names = tuple(words.unescape(name, "a name") for name in list_of_names.split(",")) if list_of_names else ()
        error, node = None, False
        if not words.at_end() and words.words[words.place].startswith("err="):
            error = words.unescape(words.field("err"), "an error text")
        if not words.at_end():
            node = words.one_of(("node",), "`node`") == "node"
        if kind == "cluster":
            self.clusters.update(names)
        return model.Request(authority, kind, version, nonce, names, error, node)

    def snapshot(self, words: Words) -> model.Snapshot:
        number = words.number("the snapshot's number")
        if number != self.snapshots + 1:
            raise words.fault(f"the snapshot's number is {number}, and {self.snapshots + 1} comes next")
        front = self.front(words, words.field("front"))
        trees: dict[str, model.Tree | model.Reason] = {}
        last = None
        while not words.at_end():
            word = words.take("a cluster")
            cluster, equals, tree = word.partition("=")
            if not equals:
                raise words.fault(f"`{word}` isn't a cluster, `=` and its tree")
            name = words.unescape(cluster, "a cluster")
            encoded = name.encode("utf-8", "surrogateescape")
            if last is not None and encoded <= last:
                raise words.fault(f"cluster `{cluster}` doesn't stand in the order of the names' bytes")
            trees[name], last = self.tree(words, tree), encoded
        self.snapshots = number
        return model.Snapshot(number, front, trees)

    @staticmethod
    def front(words: Words, text: str) -> model.Front | model.Reason:
        parts = text.split(",")
        if len(parts) == 1 and text[:1] == "!" and text[1:] in model.REASONS:
            return model.Reason(text[1:])
        if len(parts) != 3:
            raise words.fault(f"`front={text}` has neither a listener, its routes and a host, nor `!` and a reason")
        listener, routes = (words.unescape(part, "a name") for part in parts[:2])
        return model.Front(listener, routes, words.number_of(parts[2], "the virtual host's place"))

    def tree(self, words: Words, text: str) -> model.Tree | model.Reason:
        try:
            tree, is_clear = plain_tree(text)
        except ValueError as error:
            raise words.fault(str(error)) from None
        if is_clear:
            return tree
        return model.Tree(self.tell_apart(tree.children), tree.waiting and self.tell_apart(tree.waiting))

    def tell_apart(self, children: tuple[model.Child, ...]) -> tuple[model.Child, ...]:
        """Where several children begin with `*`, which is no escaped byte, the leaves of all but one have it in their
        name. The one is that with which most leaves are clusters that were asked for, else the first."""
        if sum(child.chosen for child in children) == 1:
            return children
        readings = [tuple(one if not one.chosen or place == other else with_star(one)
                          for place, one in enumerate(children))
                    for other, child in enumerate(children) if child.chosen]
        return max(readings, key=lambda reading: sum(child.leaf in self.clusters for child in reading))


@functools.lru_cache(maxsize=65536)
def plain_tree(text: str) -> tuple[model.Tree | model.Reason, bool]:
    """A tree, in which each child that begins with `*` is chosen, and whether that is one child of each list; else a
    ValueError with a sentence."""
    if text[:1] == "!" and ":" not in text:
        if text[1:] not in model.REASONS:
            raise ValueError(f"`{text}` has no reason of a report")
        return model.Reason(text[1:]), True
    serving, bar, waiting = text.partition("|")
    tree = model.Tree(plain_children(serving), plain_children(waiting) if bar else None)
    return tree, all(sum(child.chosen for child in children) == 1
                     for children in (tree.children, tree.waiting) if children is not None)


def plain_children(text: str) -> tuple[model.Child, ...]:
    children = tuple(plain_child(part) for part in text.split(","))
    if not any(child.chosen for child in children):
        raise ValueError(f"no child of `{text}` is chosen, and one should have `*`")
    return children


def plain_child(text: str) -> model.Child:
    found = CHILD.fullmatch(text)
    if not found:
        raise ValueError(f"`{text}` isn't a child, which is a leaf, `/`, a priority, `:` and a state")
    name, priority, state, pending, unused = found.groups()
    if state == "none" and (pending or unused):
        raise ValueError(f"`{text}` isn't there, so it is neither pending nor out of use")
    chosen = name.startswith("*")
    leaf = model.unescape(name[1:] if chosen else name)
    if leaf is None:
        raise ValueError(f"`{text}` has a leaf that isn't escaped as a report escapes names")
    return model.Child(leaf, int(priority), None if state == "none" else state, chosen, bool(pending), bool(unused))


def with_star(child: model.Child) -> model.Child:
    """The same text read as a child that isn't chosen and whose leaf begins with `*`."""
    return model.Child("*" + child.leaf, child.priority, child.state, False, child.pending, child.unused)
