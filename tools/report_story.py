"""What follows from a report: streams, what each snapshot changed, calls, the turns of picks, and what each entry
touches. `Story(report)` goes once over the entries."""

from __future__ import annotations

from collections import Counter
from dataclasses import dataclass, field

import report_model as model

Standing = model.Tree | model.Reason | None


@dataclass(slots=True)
class Change:
    """A cluster's standing in a snapshot and in the one before; None where the snapshot doesn't have it."""
    cluster: str
    before: Standing
    after: Standing


@dataclass(slots=True)
class RequestStory:
    """`answers` is `ack` or `nack` where the request answers the entry's response, else None. `new` and `gone` are
    compared with the names last sent for the kind on this stream; `first` is set where there were none."""
    request: model.Request
    answers: str | None
    new: tuple[str, ...]
    gone: tuple[str, ...]
    first: bool


@dataclass(slots=True)
class PickStory:
    """`number` is the pick's place in its call, from 1; `cluster` what the call held, `tree` that cluster's standing in
    the pick's snapshot, `child` the child that the pick took, `turn` how many earlier picks were given the same
    locality, told apart by its place."""
    entry: model.Entry
    number: int
    cluster: str | None
    tree: Standing
    child: model.Child | None
    turn: int | None


@dataclass(slots=True)
class CallStory:
    call: int
    caller: int
    pin: model.Entry | None = None
    hold: model.Entry | None = None
    picks: list[PickStory] = field(default_factory=list)
    commits: list[model.Entry] = field(default_factory=list)

    def entries(self) -> list[model.Entry]:
        """The call's entries in their order."""
        own = [entry for entry in (self.pin, self.hold) if entry]
        return sorted(own + [pick.entry for pick in self.picks] + self.commits, key=lambda entry: entry.number)

    def pinned_snapshot(self) -> int | None:
        return self.pin.reply.snapshot if self.pin and isinstance(self.pin.reply, model.At) else None

    def target(self) -> model.To | None:
        return self.hold.reply if self.hold and isinstance(self.hold.reply, model.To) else None

    def cluster(self) -> str | None:
        return self.target().cluster if self.target() else None

    def release(self) -> model.Entry | None:
        return next((entry for entry in self.commits if entry.reply.text() == "released"), None)

    def snapshots(self) -> set[int]:
        """The snapshots that the call pinned or picked from."""
        used = {getattr(entry.reply, "snapshot", None) for entry in self.entries()}
        return used - {None}


@dataclass(slots=True)
class Moment:
    """An entry with what was known at it. `clock` is the session's time in milliseconds; `was_open` says whether the
    event's stream was open before it; `touches` are the clusters and endpoint resources that it is about."""
    entry: model.Entry
    clock: int
    was_open: bool
    requests: list[RequestStory]
    changes: list[Change]
    front_before: model.Front | model.Reason | None
    touches: set[str] = field(default_factory=set)


@dataclass(slots=True)
class StreamRun:
    """A stream from the entry that opened it to the one that ended it, None where it is open at the end."""
    authority: str | None
    start: int
    end: int | None = None


class Story:
    def __init__(self, report: model.Report):
        self.report = report
        self.moments: list[Moment] = []
        self.calls: dict[int, CallStory] = {}
        self.streams: list[StreamRun] = []
        self.published: list[Moment] = []
        self.picks: dict[int, PickStory] = {}
        self._open: dict[str | None, StreamRun] = {}
        self._asked: dict[tuple[str | None, str], tuple[str, ...]] = {}
        self._turns: Counter[tuple[str, str, int, int]] = Counter()
        self._clock = 0
        self._awaited: model.Key | None = None
        for entry in report.entries:
            self.moments.append(self._moment(entry))
        for call in self.calls.values():
            if call.pin and call.target():
                self.moments[call.pin.number - 1].touches.add(call.cluster())

    def snapshot(self, number: int) -> model.Snapshot:
        return self.published[number - 1].entry.snapshot

    def has_one_authority(self) -> bool:
        """Whether all streams that opened are of one authority, so that it needn't be told."""
        return len({run.authority for run in self.streams}) <= 1

    def clusters(self) -> list[str]:
        """The clusters of all snapshots, calls and requests, in the order of their names."""
        names = {cluster for moment in self.published for cluster in moment.entry.snapshot.trees}
        names |= {call.cluster() for call in self.calls.values() if call.cluster() is not None}
        names |= {name for moment in self.moments for name in moment.touches}
        return sorted(names)

    def _moment(self, entry: model.Entry) -> Moment:
        event = entry.event
        was_open = isinstance(event, model.StreamEvent) and event.authority in self._open
        if isinstance(event, model.Time):
            self._clock = event.ms
        if isinstance(event, model.StreamEvent):
            self._follow_stream(entry)
        before = self.published[-1].entry.snapshot if self.published else None
        moment = Moment(entry, self._clock, was_open, [self._request(entry, request) for request in entry.requests],
                        changes(before, entry.snapshot) if entry.snapshot else [], before and before.front)
        if entry.snapshot:
            self.published.append(moment)
        if isinstance(event, model.CallEvent):
            self._follow_call(entry)
        moment.touches = self._touches(moment)
        if not entry.actor:
            self._awaited = entry.awaited
        return moment

    # Streams.

    def _follow_stream(self, entry: model.Entry) -> None:
        event, reply = entry.event, entry.reply
        ends = {"open": True, "lost": True, "response": reply.text() == "unreadable",
                "bytes": isinstance(reply, model.TooLong) or reply.text() == "compressed"}[event.word]
        if ends and event.authority in self._open:
            self._open.pop(event.authority).end = entry.number
            for kind in model.KINDS:
                self._asked.pop((event.authority, kind), None)
        if event.word == "open":
            run = StreamRun(event.authority, entry.number)
            self._open[event.authority] = run
            self.streams.append(run)

    def _request(self, entry: model.Entry, request: model.Request) -> RequestStory:
        key = request.authority, request.kind
        before = self._asked.get(key)
        self._asked[key] = request.names
        new = names_without(request.names, before or ())
        gone = names_without(before or (), request.names)
        verdict = entry.reply if isinstance(entry.reply, model.Verdict) else None
        answers = verdict and (entry.event.authority, verdict.kind) == key
        return RequestStory(request, verdict.word if answers else None, new, gone, before is None)

    # Calls.

    def _follow_call(self, entry: model.Entry) -> None:
        event = entry.event
        call = self.calls.setdefault(event.call, CallStory(event.call, entry.actor))
        if event.word == "pin":
            call.pin = entry
        elif event.word == "hold":
            call.hold = entry
        elif event.word == "commit":
            call.commits.append(entry)
        else:
            call.picks.append(self._pick(call, entry))
            self.picks[entry.number] = call.picks[-1]

    def _pick(self, call: CallStory, entry: model.Entry) -> PickStory:
        reply, cluster = entry.reply, None if call.release() else call.cluster()
        pick = PickStory(entry, len(call.picks) + 1, cluster, None, None, None)
        if cluster is None or isinstance(reply, model.Word):
            return pick
        pick.tree = self.snapshot(reply.snapshot).trees.get(cluster)
        if isinstance(pick.tree, model.Tree):
            pick.child = taken_child(pick.tree, reply)
        if isinstance(reply, model.PickedEndpoint) and pick.child:
            place = cluster, pick.child.leaf, pick.child.priority, reply.locality
            pick.turn = self._turns[place]
            self._turns[place] += 1
        return pick

    # What an entry touches.

    def _touches(self, moment: Moment) -> set[str]:
        entry = moment.entry
        names = {change.cluster for change in moment.changes}
        for story in moment.requests:
            if story.request.kind in ("cluster", "endpoint"):
                names.update(story.new, story.gone, refused_names(story.request))
        if not entry.actor:
            names.update(key.name for key in {self._awaited, entry.awaited} - {None}
                         if key.kind in ("cluster", "endpoint") and entry.awaited != self._awaited)
        if isinstance(entry.event, model.CallEvent):
            names.update({self.calls[entry.event.call].cluster()} - {None})
        return names


def names_without(names: tuple[str, ...], others: tuple[str, ...]) -> tuple[str, ...]:
    """The names that aren't among the others."""
    known = set(others)
    return tuple(name for name in names if name not in known)


def changes(before: model.Snapshot | None, after: model.Snapshot) -> list[Change]:
    """The clusters whose printed standing differs, in the order of their names' bytes."""
    old = before.trees if before else {}
    found = [Change(cluster, old.get(cluster), tree) for cluster, tree in after.trees.items()
             if tree is not old.get(cluster) and tree != old.get(cluster)]
    found += [Change(cluster, tree, None) for cluster, tree in old.items() if cluster not in after.trees]
    return sorted(found, key=lambda change: change.cluster.encode("utf-8", "surrogateescape"))


def taken_child(tree: model.Tree, reply: model.Reply) -> model.Child | None:
    """The child that a pick took: that of its reply, else the chosen one."""
    if isinstance(reply, model.PickedEndpoint):
        return tree.children[reply.child] if reply.child < len(tree.children) else None
    return tree.chosen()


def refusals(error: str) -> list[tuple[str, str]] | None:
    """The refused resources of an error text, each with its reason; None where the text isn't written so."""
    found, rest = [], error
    while rest:
        refusal = first_refusal(rest)
        if refusal is None:
            return None
        found.append(refusal[:2])
        rest = refusal[2]
    return found


def first_refusal(text: str) -> tuple[str, str, str] | None:
    """The first name, its reason, and what follows; a name may itself have `: ` in it."""
    place = text.find(": ")
    while place >= 0:
        reason, semicolon, rest = text[place + 2:].partition("; ")
        if reason in model.REASONS:
            return text[:place], reason, rest
        place = text.find(": ", place + 1)
    return None


def refused_names(request: model.Request) -> set[str]:
    return {name for name, reason in refusals(request.error or "") or [] if not name.startswith("resource ")}
