"""Says in sentences what the lines of a report mean."""

from __future__ import annotations

import report_model as model
from report_story import Change, Moment, PickStory, RequestStory, Story, refusals

REASON_WORDS = {
    "unreadable": "its bytes can't be read",
    "no-name": "a name that has to be there is empty",
    "second": "a resource of the same name stands before it in the response",
    "wrong-type": "it has another type than belongs there",
    "no-routes": "the listener has no routes",
    "config-source": "its configuration would come from another source than this stream",
    "domain": "a domain is empty or has its `*` at a wrong place",
    "no-path": "a route says nothing of the path",
    "bad-pattern": "a regular expression can't be built",
    "no-header-match": "a header matcher has no test",
    "fraction": "a fraction has an unknown denominator",
    "weights": "the weights sum to 0 or to more than 4,294,967,295",
    "many-clusters": "a virtual host names more than 1,024 clusters",
    "cluster-kind": "the cluster is neither EDS nor an aggregate",
    "no-clusters": "the aggregate has no children",
    "lb-policy": "its load balancing policy isn't round robin",
    "address": "an address isn't numeric with a port",
    "locality-twice": "a locality stands twice in one priority",
    "priority-gap": "its priorities have a gap",
    "bad-escape": "its name has a broken escape",
    "bad-type": "its name has the wrong form or type",
    "bad-authority": "its name has an authority that the bootstrap doesn't know",
    "absent": "the resource was deleted or didn't come in time",
    "no-host": "no virtual host has a domain that the target meets",
    "depth": "a chain of aggregates is longer than 16 clusters",
    "no-endpoints": "there are no endpoints",
    "failing": "all endpoints are failing",
}
NAMES_SHOWN = 6
CHILDREN_SHOWN = 6
RANGE = 2**32


def display_name(name: str) -> str:
    """A name for reading: an `xdstp:` name without its type, and escaped where it has bytes that don't print."""
    if not name.isprintable():
        name = model.escape(name)
    parts = name.split("/", 4)
    if len(parts) == 5 and parts[0] == "xdstp:" and not parts[1]:
        return f"xdstp://{parts[2]}/…/{parts[4]}"
    return name if name else "(no name)"


def with_commas(number: int) -> str:
    return f"{number:,}"


def name_list(names: tuple[str, ...] | list[str]) -> str:
    """Names joined for a sentence, the first few of many."""
    few = [display_name(name) for name in names[:NAMES_SHOWN]]
    if len(names) > NAMES_SHOWN:
        return f"{', '.join(few)} and {with_commas(len(names) - NAMES_SHOWN)} more"
    return few[0] if len(few) == 1 else f"{', '.join(few[:-1])} and {few[-1]}" if few else "none"


def count_of(number: int, noun: str) -> str:
    return f"{with_commas(number)} {noun}{'' if number == 1 else 's'}"


def of_authority(authority: str | None) -> str:
    return "the default authority" if authority is None else f"authority {display_name(authority)}"


def key_words(key: model.Key) -> str:
    return f"{key.kind} {display_name(key.name)}"


def reason_words(reason: str) -> str:
    return f"{REASON_WORDS[reason]} ({reason})"


# Entries.

def entry_words(moment: Moment, story: Story) -> str:
    """What an entry's first line says."""
    entry = moment.entry
    if isinstance(entry.event, model.CallEvent):
        return call_words(entry, story)
    said = driver_words(moment, story)
    if entry.awaited:
        return f"{said} Awaited first: {key_words(entry.awaited)}."
    return f"{said} Nothing is awaited."


def driver_words(moment: Moment, story: Story) -> str:
    entry, event = moment.entry, moment.entry.event
    if isinstance(event, model.StreamEvent):
        return stream_words(moment, "" if story.has_one_authority() else f" of {of_authority(event.authority)}")
    if isinstance(event, model.Time):
        return f"It is now {with_commas(event.ms)} ms."
    if isinstance(event, model.EndpointState):
        return f"Endpoint {event.address} is reported {event.state}."
    if entry.line == 0:
        return "The last sweep, after all lines: what calls gave back takes effect."
    return "A sweep: nothing comes from outside, and what calls gave back takes effect."


def stream_words(moment: Moment, whose: str) -> str:
    """What an event of a stream says; `whose` names the authority where there are several."""
    event, reply = moment.entry.event, moment.entry.reply
    if event.word == "open":
        again = " anew; the stream before counts as lost" if moment.was_open else ""
        return f"The stream{whose} opens{again}."
    if event.word == "lost":
        if reply.text() == "closed":
            return f"The stream{whose} should be lost, but none was open."
        return f"The stream{whose} is lost. Accepted versions outlive it; nonces and sent names don't."
    return response_words(whose, reply) if event.word == "response" else bytes_words(whose, reply)


def response_words(whose: str, reply: model.Reply) -> str:
    if isinstance(reply, model.Verdict):
        response = f"{'An' if reply.kind == 'endpoint' else 'A'} {reply.kind} response{whose}"
        if reply.word == "ack":
            return f"{response} is accepted."
        return f"{response} has refused resources; its valid ones are accepted."
    return {
        "ignored": f"A response{whose} has a type that wasn't asked for on this stream, and is ignored.",
        "unreadable": f"A response{whose} can't be read, which ends the stream without an answer.",
        "closed": f"A response{whose} came while no stream was open.",
    }[reply.text()]


def bytes_words(whose: str, reply: model.Reply) -> str:
    if isinstance(reply, model.TooLong):
        return f"A message of {with_commas(reply.length)} bytes, above 4,194,304, is announced: the stream{whose} ends."
    return {
        "ok": f"The line's bytes were read from the stream{whose}.",
        "closed": f"Bytes{whose} came while no stream was open, and are dropped.",
        "compressed": f"A message says that it is compressed: the stream{whose} ends.",
        "ended": f"The stream{whose} had ended within this line; the rest of its bytes is dropped.",
    }[reply.text()]


def call_words(entry: model.Entry, story: Story) -> str:
    """What an entry of a call says."""
    event, reply = entry.event, entry.reply
    call = f"Call {event.call}"
    if event.word == "pin":
        return (f"{call} takes snapshot {reply.snapshot}, the latest." if isinstance(reply, model.At)
                else f"{call} begins before any snapshot is published, so it gets no route and no cluster.")
    if event.word == "hold":
        return hold_words(call, reply)
    if event.word == "commit":
        return (f"{call} is committed and lets its cluster go." if reply.text() == "released"
                else f"{call} is committed but held no cluster.")
    return f"{call} {pick_words(story.picks[entry.number])}"


def hold_words(call: str, reply: model.Reply) -> str:
    if isinstance(reply, model.To):
        return (f"{call} meets route {reply.route} of snapshot {reply.snapshot} and holds cluster "
                f"{display_name(reply.cluster)} until its commit.")
    if isinstance(reply, model.NoRoute):
        return f"{call} meets no route of snapshot {reply.snapshot}, so it holds no cluster."
    if isinstance(reply, model.NoAction):
        return (f"{call} meets route {reply.route} of snapshot {reply.snapshot}, which leads to no cluster, so it "
                "holds none.")
    return f"Snapshot {reply.snapshot} has no routes for {call.lower()}: {reason_words(reply.reason)}."


def pick_words(pick: PickStory) -> str:
    """What a pick came to, as the end of a sentence that begins with the call."""
    reply = pick.entry.reply
    if isinstance(reply, model.PickedEndpoint):
        turn = "" if pick.turn is None else f", turn {pick.turn}"
        return (f"goes to {reply.address}: place {reply.place} in locality {reply.locality} of {taken_words(pick)} "
                f"(child {reply.child}){turn}, by snapshot {reply.snapshot}.")
    if isinstance(reply, model.Queue):
        return f"waits: by snapshot {reply.snapshot} {taken_words(pick)} is chosen and still connecting."
    if isinstance(reply, model.Fail):
        return f"fails by snapshot {reply.snapshot}: {reason_words(reply.reason)}."
    if isinstance(reply, model.Drop):
        return f"is dropped by the drop rule {category_words(reply)}, by snapshot {reply.snapshot}."
    return "picks nothing, since it holds no cluster."


def category_words(reply: model.Drop) -> str:
    return f"`{display_name(reply.category)}`" if reply.category else "without a category"


def taken_words(pick: PickStory) -> str:
    """The cluster that a pick used, with the child that it took."""
    cluster = display_name(pick.cluster or "")
    return f"{child_name(pick.child, pick.cluster)} of {cluster}" if pick.child else cluster


# Patterns and requests.

def pattern_words(pattern: str) -> str:
    return f"The pattern `{display_name(pattern)}` can't be built as a regular expression."


def request_words(story: RequestStory) -> str:
    request = story.request
    parts = [answer_words(story)] if story.answers else []
    parts += name_words(story)
    if not story.answers and request.nonce:
        parts.append(f"It repeats nonce {display_name(request.nonce)}; {version_words(request)}.")
    elif not story.answers and request.version:
        parts.append(f"It says that {version_words(request)} from an earlier stream.")
    if request.node:
        parts.append("As the stream's first request it carries the node.")
    return " ".join(parts)


def version_words(request: model.Request) -> str:
    return f"version {display_name(request.version)} is in use" if request.version else "no version is in use"


def answer_words(story: RequestStory) -> str:
    request = story.request
    if story.answers == "ack":
        return f"ACK of the {request.kind} response with nonce {display_name(request.nonce)}: {version_words(request)}."
    refused = refusals(request.error or "")
    if refused is None:
        told = f"`{display_name(request.error)}`"
    else:
        told = "; ".join(f"{display_name(name)} is refused, since {reason_words(reason)}"
                         for name, reason in refused[:NAMES_SHOWN])
        more = len(refused) - NAMES_SHOWN
        told += f"; and {with_commas(more)} more" if more > 0 else ""
    kept = f"version {display_name(request.version)} stays in use" if request.version else "no version is in use yet"
    return f"NACK of the {request.kind} response with nonce {display_name(request.nonce)}: {told}; {kept}."


def name_words(story: RequestStory) -> list[str]:
    """What the request's names ask for, compared with the request before."""
    request = story.request
    what = f"{request.kind}{'' if len(request.names) == 1 else 's'}"
    if story.first:
        return [f"Asks for {what} {name_list(request.names)}, the first of this kind on the stream."]
    if not request.names and (story.gone or not story.answers):
        return [f"No {request.kind} is asked for any more (before: {name_list(story.gone)})."]
    if not story.new and not story.gone:
        return [f"It still asks for {name_list(request.names)}."] if request.names else []
    both = (("new", story.new), ("no longer", story.gone))
    differs = [f"{word}: {name_list(names)}" for word, names in both if names]
    return [f"Asks for {what} {name_list(request.names)} ({'; '.join(differs)})."]


# Snapshots and trees.

def child_name(child: model.Child, cluster: str | None = None) -> str:
    """A child by its leaf and priority; by its priority alone where its leaf is the cluster itself."""
    return f"priority {child.priority}" if child.leaf == cluster else f"{display_name(child.leaf)}/{child.priority}"


def child_words(child: model.Child) -> str:
    """A child's state, as `connecting, pending`."""
    state = child.state or "not there"
    flags = [word for word, is_set in (("chosen", child.chosen), ("pending", child.pending),
                                       ("out of use", child.unused)) if is_set]
    return ", ".join([state, *flags])


def tree_words(children: tuple[model.Child, ...], cluster: str) -> str:
    told = "; ".join(f"{child_name(child, cluster)} {child_words(child)}" for child in children[:CHILDREN_SHOWN])
    more = len(children) - CHILDREN_SHOWN
    return told + (f"; and {with_commas(more)} more" if more > 0 else "")


def front_words(front: model.Front | model.Reason) -> str:
    if isinstance(front, model.Reason):
        return f"no routes, since {reason_words(front.reason)}"
    return f"listener {display_name(front.listener)}, routes {display_name(front.routes)}, virtual host {front.host}"


def snapshot_words(moment: Moment) -> list[str]:
    """What a snapshot says: a first sentence, then one for each cluster that changed."""
    snapshot, before = moment.entry.snapshot, moment.front_before
    if before is None:
        said = [f"Snapshot {snapshot.number}, the first: {front_words(snapshot.front)}."]
    elif before != snapshot.front:
        said = [f"Snapshot {snapshot.number}. The front is now {front_words(snapshot.front)}; before it was "
                f"{front_words(before)}."]
    elif moment.changes:
        said = [f"Snapshot {snapshot.number}, by {cause_words(moment.entry)}."]
    else:
        return [f"Snapshot {snapshot.number} reads like the one before; what differs isn't printed (routes, weights, "
                "endpoints, or the state of a child that isn't there)."]
    return said + [change_words(change) for change in moment.changes]


def cause_words(entry: model.Entry) -> str:
    """The event that published a snapshot, in a few words."""
    event = entry.event
    if isinstance(event, model.EndpointState):
        return f"{event.address} becoming {event.state}"
    if isinstance(event, model.Time):
        return f"the time {with_commas(event.ms)} ms"
    if isinstance(event, model.StreamEvent) and isinstance(entry.reply, model.Verdict):
        return f"a response of kind {entry.reply.kind}"
    if isinstance(event, model.Sweep):
        return "what calls gave back"
    return f"`{event.text()}`"


def change_words(change: Change) -> str:
    name, before, after = display_name(change.cluster), change.before, change.after
    if after is None:
        return f"{name} is gone."
    if isinstance(after, model.Reason):
        return f"{name} is in error, since {reason_words(after.reason)}."
    if before is None:
        return f"{name} is new: {standing_words(after, change.cluster)}."
    if isinstance(before, model.Reason):
        return f"{name} is no longer in error: {standing_words(after, change.cluster)}."
    return f"{name}: {'; '.join(tree_changes(before, after, change.cluster))}."


def standing_words(tree: model.Tree | model.Reason, cluster: str) -> str:
    """How a cluster stands in a snapshot."""
    if isinstance(tree, model.Reason):
        return f"an error, since {reason_words(tree.reason)}"
    waiting = f", while a new tree waits ({tree_words(tree.waiting, cluster)})" if tree.waiting else ""
    return tree_words(tree.children, cluster) + waiting


def tree_changes(before: model.Tree, after: model.Tree, cluster: str) -> list[str]:
    """How a tree differs from the one before, part by part."""
    if before.waiting and not after.waiting and names_of(after.children) == names_of(before.waiting):
        return [f"the tree that waited takes over: {tree_words(after.children, cluster)}"]
    said = children_changes(before.children, after.children, cluster)
    if after.waiting and not before.waiting:
        said.append(f"a new tree waits while the old one serves: {tree_words(after.waiting, cluster)}")
    elif before.waiting and not after.waiting:
        said.append("the tree that waited is dropped")
    elif after.waiting and before.waiting != after.waiting:
        said.append(f"in the tree that waits: {'; '.join(children_changes(before.waiting, after.waiting, cluster))}")
    return said or ["its tree is another one"]


def names_of(children: tuple[model.Child, ...]) -> list[tuple[str, int]]:
    return [(child.leaf, child.priority) for child in children]


def children_changes(before: tuple[model.Child, ...], after: tuple[model.Child, ...], cluster: str) -> list[str]:
    old = dict(zip(names_of(before), before))
    new = dict(zip(names_of(after), after))
    said = [child_change(old.get(name), child, cluster) for name, child in new.items() if old.get(name) != child]
    said += [f"{child_name(child, cluster)} is no longer a child" for name, child in old.items() if name not in new]
    if not said and before != after:
        said = ["its children stand in another order"]
    more = len(said) - CHILDREN_SHOWN
    return said[:CHILDREN_SHOWN] + ([f"and {with_commas(more)} more changes"] if more > 0 else [])


def child_change(before: model.Child | None, after: model.Child, cluster: str) -> str:
    """How one child differs, as `web/0 connecting → ready, no longer pending`."""
    name = child_name(after, cluster)
    if before is None:
        return f"{name} is a new child, {child_words(after)}"
    parts = []
    if before.state != after.state:
        parts.append(f"{before.state or 'not there'} → {after.state or 'not there'}")
    flags = [("chosen", before.chosen, after.chosen), ("pending", before.pending, after.pending),
             ("out of use", before.unused, after.unused)]
    gone = [word for word, was, now in flags if was and not now]
    if after.state != "connecting" and "pending" in gone:
        gone.remove("pending")
    if after.state is None and "out of use" in gone:
        gone.remove("out of use")
    parts += [f"no longer {word}" for word in gone]
    parts += [f"now {word}" for word, was, now in flags if now and not was]
    return f"{name} {', '.join(parts)}"
