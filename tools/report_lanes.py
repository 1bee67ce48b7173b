"""The strip above a page: a lane for each stream, cluster and caller, drawn over the entries from left to right."""

from __future__ import annotations

import html
from collections import Counter
from dataclasses import dataclass, field

import report_model as model
from report_story import CallStory, Story
from report_words import display_name

COLUMNS = 600
CLUSTERS_SHOWN = 8
CALLS_SHOWN = 8
WORST = ("fail", "drop", "queue", "nack", "failing", "gone", "wait", "connecting", "ack", "ready", "whole", "up")


@dataclass(frozen=True, slots=True)
class Bar:
    """From the beginning of entry `start` to the end of entry `end`; a tick where `is_tick` is set."""
    start: int
    end: int
    look: str
    title: str
    is_tick: bool = False


@dataclass(slots=True)
class Lane:
    label: str
    bars: list[Bar] = field(default_factory=list)


def lanes(story: Story) -> list[Lane]:
    return [*stream_lanes(story), awaited_lane(story), *cluster_lanes(story), *call_lanes(story)]


def stream_lanes(story: Story) -> list[Lane]:
    """When each authority's stream was up, with its ACKs, NACKs and what ended it."""
    found: dict[str | None, Lane] = {}
    for run in story.streams:
        label = "stream" if run.authority is None else f"stream of {display_name(run.authority)}"
        lane = found.setdefault(run.authority, Lane(label))
        end = run.end or len(story.moments)
        lane.bars.append(Bar(run.start, end, "up", f"{label}, entries {run.start} to {end}"))
    for moment in story.moments:
        event, reply = moment.entry.event, moment.entry.reply
        if isinstance(event, model.StreamEvent) and event.authority in found:
            look = {"ack": "ack", "nack": "nack"}.get(reply.text().split(" ")[0])
            if event.word == "response":
                found[event.authority].bars.append(tick(moment.entry, look or "gone"))
    return list(found.values())


def tick(entry: model.Entry, look: str) -> Bar:
    title = f"entry {entry.number}: {entry.event.text()} {entry.reply.text()}"
    return Bar(entry.number, entry.number, look, title, True)


def awaited_lane(story: Story) -> Lane:
    """When something was awaited, with a tick for each snapshot."""
    lane = Lane("awaited, snapshots")
    start, current = 0, None
    for moment in story.moments:
        entry = moment.entry
        if entry.actor or start and entry.awaited == current:
            continue
        if start:
            lane.bars.append(awaited_bar(start, entry.number - 1, current))
        start, current = entry.number, entry.awaited
    if start:
        lane.bars.append(awaited_bar(start, len(story.moments), current))
    lane.bars += [Bar(moment.entry.number, moment.entry.number, "snapshot", f"snapshot {place}, entry "
                      f"{moment.entry.number}", True) for place, moment in enumerate(story.published, 1)]
    return lane


def awaited_bar(start: int, end: int, awaited: model.Key | None) -> Bar:
    return Bar(start, end, "wait" if awaited else "whole",
               f"entries {start} to {end}: " + (f"{awaited.text()} is awaited" if awaited else "nothing is awaited"))


def cluster_lanes(story: Story) -> list[Lane]:
    """The chosen child's state in each snapshot, for the clusters that changed most often."""
    changed = Counter(change.cluster for moment in story.published for change in moment.changes)
    most = sorted(name for name, count in changed.most_common(CLUSTERS_SHOWN))
    found = [cluster_lane(story, name) for name in most]
    if len(changed) > CLUSTERS_SHOWN:
        found.append(Lane(f"and {len(changed) - CLUSTERS_SHOWN:,} more"))
    return found


def cluster_lane(story: Story, name: str) -> Lane:
    lane = Lane(f"cluster {display_name(name)}")
    start, standing = None, None
    for moment in story.published:
        for change in moment.changes:
            if change.cluster != name:
                continue
            if standing:
                lane.bars.append(cluster_bar(start, moment.entry.number - 1, name, standing))
            start, standing = moment.entry.number, change.after
    if standing:
        lane.bars.append(cluster_bar(start, len(story.moments), name, standing))
    return lane


def cluster_bar(start: int, end: int, name: str, standing: model.Tree | model.Reason) -> Bar:
    chosen = standing.chosen() if isinstance(standing, model.Tree) else None
    look = (chosen.state or "connecting") if chosen else "gone"
    said = f"{chosen.name()} {chosen.state or 'not there'}" if chosen else standing.text()
    if isinstance(standing, model.Tree) and standing.waiting:
        said += ", a new tree waits"
    return Bar(start, end, look, f"entries {start} to {end}: {display_name(name)} {said}")


def call_lanes(story: Story) -> list[Lane]:
    """A lane for each call, or for each caller where there are many; with a tick for each pick."""
    found: dict[int, Lane] = {}
    alone = len(story.calls) <= CALLS_SHOWN
    for call in sorted(story.calls.values(), key=lambda call: (call.call if alone else call.caller)):
        key = call.call if alone else call.caller
        label = f"call {call.call}" if alone else f"calls of caller {call.caller}"
        found.setdefault(key, Lane(label)).bars.extend(call_bars(call, len(story.moments)))
    return list(found.values())


def call_bars(call: CallStory, last: int) -> list[Bar]:
    entries = call.entries()
    end = last if call.cluster() is not None and not call.release() else entries[-1].number
    cluster = call.cluster()
    where = "no cluster" if cluster is None else f"cluster {display_name(cluster)}"
    bar = Bar(entries[0].number, end, "nocluster" if cluster is None else "call",
              f"call {call.call}, entries {entries[0].number} to {end}: {where}")
    return [bar] + [tick(pick.entry, pick_look(pick.entry.reply)) for pick in call.picks]


def pick_look(reply: model.Reply) -> str:
    looks = {model.PickedEndpoint: "ready", model.Queue: "queue", model.Fail: "fail", model.Drop: "drop"}
    return looks.get(type(reply), "nocluster")


# HTML.

def strip(story: Story) -> str:
    count = max(1, len(story.moments))
    return "\n".join(lane_html(lane, count) for lane in lanes(story))


def lane_html(lane: Lane, count: int) -> str:
    bars = [bar for bar in lane.bars if not bar.is_tick]
    ticks = [bar for bar in lane.bars if bar.is_tick]
    drawn = "".join(bar_html(bar, count) for bar in thin(bars, count) + thin(ticks, count))
    label = html.escape(lane.label)
    named = f'<span class="label" title="{label}">{label}</span>'
    return f'<div class="lane">{named}<span class="track">{drawn}</span></div>'


def thin(bars: list[Bar], count: int) -> list[Bar]:
    """Of more bars than there are columns, the worst that begins in each column."""
    if len(bars) <= COLUMNS:
        return bars
    kept: dict[int, Bar] = {}
    for bar in bars:
        column = bar.start * COLUMNS // count
        if column not in kept or badness(bar) < badness(kept[column]):
            kept[column] = bar
    return list(kept.values())


def badness(bar: Bar) -> int:
    return WORST.index(bar.look) if bar.look in WORST else len(WORST)


def bar_html(bar: Bar, count: int) -> str:
    left = 100 * (bar.start - 1) / count
    width = 100 * (bar.end - bar.start + 1) / count
    if bar.is_tick:
        left += width / 2
    size = "" if bar.is_tick else f"width:{width:.3f}%;"
    shape = "tick" if bar.is_tick else "bar"
    return f'<i class="{shape} {bar.look}" style="left:{left:.3f}%;{size}" title="{html.escape(bar.title)}"></i>'
