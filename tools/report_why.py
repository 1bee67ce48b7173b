"""Says in sentences why a call went where it went."""

from __future__ import annotations

import report_model as model
from report_session import Session, draw
from report_story import CallStory, PickStory, Story
from report_words import (RANGE, category_words, cause_words, child_name, child_words, display_name, front_words,
                          reason_words, standing_words, with_commas)


def why_call(call: CallStory, story: Story, session: Session | None = None) -> list[str]:
    """The sentences on one call, from its pin to its commit."""
    said = [start_words(call, session)]
    if call.pinned_snapshot() is not None:
        said.append(pinned_words(call, story))
    if call.hold:
        said.append(route_words(call, story, session))
    picks = {pick.entry.number: pick for pick in call.picks}
    for entry in call.entries():
        if entry.number in picks:
            said.append(why_pick(picks[entry.number], call, session))
        elif entry.event.word == "commit":
            said.append(commit_words(entry))
    if call.cluster() is not None and not call.release():
        said.append("It is never committed, so it holds its cluster to the end.")
    return said


def start_words(call: CallStory, session: Session | None) -> str:
    if call.pin is None:
        return f"Call {call.call} of caller {call.caller} is never started, so it holds nothing."
    made = ""
    if session:
        words = session.words(call.pin.line)
        fields = f", headers {' '.join(words[6:])}" if len(words) > 6 else ""
        made = f" with path {words[5]}{fields} and word {words[4]}"
    start = f"Call {call.call} of caller {call.caller} starts in line {call.pin.line}{made}."
    if call.pinned_snapshot() is None:
        return f"{start} No snapshot was published yet, so it has no route and no cluster."
    return start


def pinned_words(call: CallStory, story: Story) -> str:
    published = story.published[call.pinned_snapshot() - 1].entry
    entry = f"entry {published.number} (line {published.line})"
    return (f"It pins snapshot {call.pinned_snapshot()}, the latest then; {entry} had published it, by "
            f"{cause_words(published)}: {front_words(published.snapshot.front)}.")


def route_words(call: CallStory, story: Story, session: Session | None) -> str:
    reply = call.hold.reply
    if isinstance(reply, model.NoFront):
        return f"That snapshot has no routes, since {reason_words(reply.reason)}: the call holds no cluster."
    if isinstance(reply, model.NoRoute):
        return ("No route of the virtual host has a path, headers and a fraction that the call meets: it holds no "
                "cluster.")
    first = f"Route {reply.route} is the first that it meets"
    if isinstance(reply, model.NoAction):
        return f"{first}, and that route leads to no cluster: the call holds none."
    tree = story.snapshot(reply.snapshot).trees.get(reply.cluster)
    stands = f" There it stands as {standing_words(tree, reply.cluster)}." if tree else ""
    return (f"{first}, and it leads to cluster {display_name(reply.cluster)}{route_draws(call, session)}. The call "
            f"holds that cluster until its commit, also where later routes don't name it.{stands}")


def route_draws(call: CallStory, session: Session | None) -> str:
    """The draws of the start's word for the route's fraction and weights."""
    if session is None:
        return ""
    word, route = int(session.words(call.pin.line)[4]), call.hold.reply.route
    return (f" (the word draws {percent(draw(word, 2 * route))} for the route's fraction, if it has one, and "
            f"{percent(draw(word, 2 * route + 1))} among its weighted clusters, if it has several)")


def percent(drawn: int) -> str:
    return f"{100 * drawn / RANGE:.2f}%"


def why_pick(pick: PickStory, call: CallStory, session: Session | None) -> str:
    entry, reply = pick.entry, pick.entry.reply
    head = f"Pick {pick.number} (entry {entry.number}, line {entry.line})"
    if isinstance(reply, model.Word):
        return f"{head} gets nothing, since the call holds no cluster{not_held(call, entry)}."
    newer = "" if reply.snapshot == call.pinned_snapshot() else ", newer than the pinned one"
    head = f"{head} uses snapshot {reply.snapshot}, the latest then{newer}."
    if isinstance(reply, model.PickedEndpoint):
        return f"{head} {given_words(pick, session)}"
    if isinstance(reply, model.Queue):
        return f"{head} {chosen_words(pick)} The call waits for it (queue)."
    if isinstance(reply, model.Fail):
        return f"{head} {fail_words(pick)}"
    drawn = f" on a draw of its word {session.words(entry.line)[4]}" if session else ""
    leaf = display_name(pick.child.leaf) if pick.child else "its chosen leaf"
    return (f"{head} The endpoint resource of {leaf} has drop rules, and the one {category_words(reply)} drops this "
            f"pick{drawn}; drops come before all states.")


def not_held(call: CallStory, entry: model.Entry) -> str:
    released = call.release()
    if released and released.number < entry.number:
        return f": it was committed before, at entry {released.number}"
    if call.pin is None or call.pin.number > entry.number:
        return ": it wasn't started before"
    if call.pinned_snapshot() is None:
        return ": it got no snapshot"
    return ": it met no route to one"


def chosen_words(pick: PickStory) -> str:
    """The chosen child of the cluster and why it is that one."""
    if pick.child is None:
        return f"The report has no tree of cluster {display_name(pick.cluster or '')} there."
    children, child = pick.tree.children, pick.child
    place = children.index(child)
    before = "; ".join(f"{child_name(one, pick.cluster)} {child_words(one)}" for one in children[:place][:4])
    name = f"{child_name(child, pick.cluster)} (child {place})"
    state = child.state or "not there"
    pending = " and within its 10 seconds of failover time (pending)" if child.pending else ""
    passed = f" The children before it are passed over: {before}{'; ..' if place > 4 else ''}." if place else ""
    waits = " A new tree waits and doesn't serve yet." if pick.tree.waiting else ""
    return f"The chosen child of {display_name(pick.cluster)} is {name}, which is {state}{pending}.{passed}{waits}"


def given_words(pick: PickStory, session: Session | None) -> str:
    reply = pick.entry.reply
    drawn = ""
    if session:
        word = session.words(pick.entry.line)[4]
        drawn = f" (word {word} draws {percent(draw(int(word), 0))})"
    chosen = chosen_words(pick) if pick.child else f"It takes child {reply.child}."
    place = f"Among the ready localities of that priority the word chooses number {reply.locality} by weight{drawn}."
    return f"{chosen} {place} {turn_words(pick)}"


def turn_words(pick: PickStory) -> str:
    reply = pick.entry.reply
    if pick.turn is None:
        return f"Its turn gives place {reply.place}: endpoint {reply.address}."
    few = {0: "No earlier pick was", 1: "One earlier pick was"}
    earlier = few.get(pick.turn, f"{with_commas(pick.turn)} earlier picks were")
    return (f"{earlier} given that locality, so the turn is {with_commas(pick.turn)}, which falls on place "
            f"{reply.place} of its ready endpoints: {reply.address}.")


def fail_words(pick: PickStory) -> str:
    reply = pick.entry.reply
    if isinstance(pick.tree, model.Reason):
        cluster = display_name(pick.cluster)
        return f"Cluster {cluster} is in error there, so the call fails: {reason_words(reply.reason)}."
    return f"{chosen_words(pick)} The call fails: {reason_words(reply.reason)}."


def commit_words(entry: model.Entry) -> str:
    freed = "gives its cluster free" if entry.reply.text() == "released" else "has no cluster to give free"
    return f"It commits at entry {entry.number} (line {entry.line}) and {freed}."
