"""A report as one HTML page, which needs nothing else: the data as JSON, and a script that shows the part that is
looked at."""

from __future__ import annotations

import html
import json
import pathlib
from collections.abc import Iterator

import report_model as model
from report_filter import Selection
from report_lanes import strip
from report_session import Session
from report_story import CallStory, Moment, Story
from report_text import notes_below, summary
from report_why import why_call
from report_words import reason_words, entry_words, front_words, display_name, snapshot_words

HERE = pathlib.Path(__file__).parent
POLICY = "default-src 'none'; style-src 'unsafe-inline'; script-src 'unsafe-inline'"


def page(story: Story, session: Session | None, wanted: Selection, title: str) -> Iterator[str]:
    """The page, line by line."""
    data = json.dumps(Data(story, session, wanted).all(), ensure_ascii=True, separators=(",", ":"))
    parts = {
        "TITLE": html.escape(title), "POLICY": html.escape(POLICY), "SUMMARY": html.escape(summary(story)),
        "STYLE": asset("report_page.css"), "SCRIPT": asset("report_page.js"), "LANES": strip(story),
        "COUNT": str(len(story.moments)), "DATA": data.replace("<", "\\u003c"),
    }
    yield from fill(asset("report_page.html"), parts).splitlines()


def asset(name: str) -> str:
    return (HERE / name).read_text(encoding="utf-8")


def fill(template: str, parts: dict[str, str]) -> str:
    """The template with each `{{NAME}}` replaced; what stands in a part isn't replaced again."""
    pieces = template.split("{{")
    return pieces[0] + "".join(parts[name] + rest for name, rest in (piece.split("}}", 1) for piece in pieces[1:]))


class Table:
    """Values that many entries name, each told once: `place` gives a value's place."""

    def __init__(self) -> None:
        self.rows: list[object] = []
        self.places: dict[str, int] = {}

    def place(self, key: str, row: object) -> int:
        if key not in self.places:
            self.places[key] = len(self.rows)
            self.rows.append(row)
        return self.places[key]


class Data:
    """What the script is handed. An entry is a list: line, actor, time, look, call (-1 without one), the clusters that
    it touches, its lines with their explanations but for the snapshot's, and the snapshot's number (0 without one)."""

    def __init__(self, story: Story, session: Session | None, wanted: Selection):
        self.story = story
        self.session = session
        self.wanted = wanted
        self.names = story.clusters()
        self.clusters = {name: place for place, name in enumerate(self.names)}
        self.trees = Table()
        self.fronts = Table()

    def all(self) -> dict[str, object]:
        story = self.story
        return {
            "clusters": [[model.escape(name), display_name(name)] for name in self.names],
            "entries": [self.entry(moment) for moment in story.moments],
            "snapshots": [self.snapshot(moment) for moment in story.published],
            "calls": [self.call(story.calls[call]) for call in sorted(story.calls)],
            "trees": self.trees.rows, "fronts": self.fronts.rows,
            "session": self.session_lines(), "wanted": self.begin(),
        }

    def session_lines(self) -> dict[int, str] | None:
        if self.session is None:
            return None
        lines = {moment.entry.line for moment in self.story.moments} - {0}
        return {line: self.session.short_line(line) for line in sorted(lines)}

    def begin(self) -> dict[str, str]:
        """The filter that the page begins with, as its fields have it."""
        wanted = self.wanted
        lines = wanted.lines and ("-".join(map(str, wanted.lines)) if wanted.lines[0] != wanted.lines[1]
                                  else str(wanted.lines[0]))
        actor = None if wanted.actor is None else f"c{wanted.actor}" if wanted.actor else "d"
        fields = {"cluster": wanted.cluster, "call": wanted.call, "line": lines, "actor": actor}
        return {name: str(value) for name, value in fields.items() if value is not None}

    def entry(self, moment: Moment) -> list[object]:
        entry = moment.entry
        notes = [[entry_words(moment, self.story)], *notes_below(moment)]
        rows = [[line, " ".join(note)] for line, note in zip(entry.lines_before_snapshot(), notes)]
        call = entry.event.call if isinstance(entry.event, model.CallEvent) else -1
        touches = sorted(self.clusters[name] for name in moment.touches)
        return [entry.line, entry.actor, moment.clock, look(moment), call, touches, rows,
                entry.snapshot.number if entry.snapshot else 0]

    def snapshot(self, moment: Moment) -> list[object]:
        """Its entry, front, explanation, and the clusters whose tree isn't that of the snapshot before (-1: gone)."""
        front = moment.entry.snapshot.front
        changed = [[self.clusters[change.cluster], -1 if change.after is None else self.tree(change.after)]
                   for change in moment.changes]
        place = self.fronts.place(front.text(), [front.text(), front_words(front)])
        return [moment.entry.number, place, snapshot_words(moment), changed]

    def tree(self, tree: model.Tree | model.Reason) -> int:
        """The place of a tree: its text, why it is an error (else empty), what serves and what waits."""
        text = tree.text()
        if text in self.trees.places:
            return self.trees.places[text]
        if isinstance(tree, model.Reason):
            return self.trees.place(text, [text, reason_words(tree.reason), [], None])
        waiting = None if tree.waiting is None else [child_row(child) for child in tree.waiting]
        return self.trees.place(text, [text, "", [child_row(child) for child in tree.children], waiting])

    def call(self, call: CallStory) -> list[object]:
        """Its number, caller, cluster (-1 without one), entries, snapshots, picks with their looks, how it ended, and
        why it went where it went."""
        cluster = call.cluster()
        picks = [[pick_name(pick.entry.reply), pick_look(pick.entry.reply)] for pick in call.picks]
        ended = "committed" if call.commits else "not committed"
        return [call.call, call.caller, -1 if cluster is None else self.clusters[cluster],
                [entry.number for entry in call.entries()], sorted(call.snapshots()), picks, route_name(call), ended,
                why_call(call, self.story, self.session)]


def child_row(child: model.Child) -> list[object]:
    flags = 1 * child.chosen + 2 * child.pending + 4 * child.unused
    return [display_name(child.leaf), child.priority, child.state or "", flags]


def route_name(call: CallStory) -> str:
    """Which route a call met, in a few words."""
    if call.hold is None:
        return "no snapshot" if call.pin else "not started"
    reply = call.hold.reply
    return {model.To: "route {}", model.NoAction: "route {} without a cluster", model.NoRoute: "no route met",
            model.NoFront: "no routes there"}[type(reply)].format(getattr(reply, "route", ""))


def pick_name(reply: model.Reply) -> str:
    if isinstance(reply, model.PickedEndpoint):
        return reply.address
    if isinstance(reply, model.Fail):
        return f"fail: {reply.reason}"
    if isinstance(reply, model.Drop):
        return f"drop: {display_name(reply.category)}" if reply.category else "drop"
    return "queue" if isinstance(reply, model.Queue) else "no cluster"


def pick_look(reply: model.Reply) -> str:
    looks = {model.PickedEndpoint: "good", model.Queue: "slow", model.Fail: "bad", model.Drop: "bad"}
    return looks.get(type(reply), "quiet")


def look(moment: Moment) -> str:
    """How an entry looks: `good`, `bad`, `slow`, `news` or `quiet`."""
    entry, reply = moment.entry, moment.entry.reply
    if isinstance(reply, model.Verdict):
        return "good" if reply.word == "ack" else "bad"
    if isinstance(entry.event, model.CallEvent):
        return pick_look(reply) if entry.event.word == "pick" else "call"
    if isinstance(reply, model.TooLong) or reply.text() in ("compressed", "unreadable", "ended"):
        return "bad"
    if isinstance(entry.event, model.StreamEvent) and entry.event.word == "lost":
        return "slow"
    return "news" if entry.snapshot or moment.requests else "quiet"
