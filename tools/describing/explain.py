"""From the text of a session to its description: each data line is decoded to its responses."""

import json

from describing.build import Builder
from describing.forms import header_value, read_session
from describing.messages import OTHER, URLS
from describing.places import Document, Number, Problem, plain_number, to_json

LONGEST = 4_194_304
KINDS = {url: kind for kind, url in URLS.items()}


class Event:
    """An event of a description, with its comments and the numbers of its first and last line."""

    def __init__(self, members, first, last, comments=()):
        self.members, self.first, self.last, self.comments = members, first, last, list(comments)


class Stretch:
    """Data lines of one authority whose bytes together are complete frames, or after which no complete frame follows."""

    def __init__(self):
        self.lines, self.data = [], b""


def describe(name, data, messages):
    """The head of the description of a session's bytes, and its events. Building it again gives the same bytes."""
    session = read_session(data)
    head = {"bootstrap": bootstrap(session.boot), "target": session.target, "callers": session.callers}
    if not session.ends:
        head["last_line_feed"] = False
    events = Explainer(session, messages).events()
    value = {**head, "events": [event.members for event in events]}
    try:
        again = Builder(Document(name, value, {}), messages).session()
    except Problem as problem:
        raise Problem((line_of(problem.path, events),), problem.sentence) from None
    if again != data:
        raise Problem((0,), "this session's description would give another text, which is a fault of this tool")
    return head, events


def line_of(path, events):
    """The line of a session that a path of its description speaks of."""
    if path[:1] == ("events",) and len(path) > 1:
        return events[path[1]].first
    return {"bootstrap": 2, "target": 3, "callers": 4}.get(path[0] if path else "", 0)


def bootstrap(text):
    """The bootstrap as an object, where this is written as the text is, else the text."""
    try:
        value = json.loads(text, parse_int=plain_number, parse_float=plain_number)
        same = to_json(value) == text and not has_odd_number(value)
    except (ValueError, RecursionError):
        return text
    return value if same and isinstance(value, dict) else text


def has_odd_number(value):
    """Whether a value has a number that isn't written as a whole number."""
    if isinstance(value, dict):
        return any(map(has_odd_number, value.values()))
    return any(map(has_odd_number, value)) if isinstance(value, list) else isinstance(value, Number)


class Explainer:
    """The events of a session."""

    def __init__(self, session, messages):
        self.session, self.messages = session, messages
        self.gates = {line.gate for line in session.lines if line.gate}

    def events(self):
        """The events in order, with labels and gates. Lines of one stretch that follow one another are one event."""
        out = {}
        for stretch in self.stretches():
            for event in self.data_events(stretch):
                out[event.first] = event
        for line in self.session.lines:
            if line.verb != "data":
                out[line.number] = Event(self.members(line), line.number, line.number)
        events = [out[first] for first in sorted(out)]
        labels = {event.last: event for event in events}
        gates = {line.number: line.gate for line in self.session.lines if line.gate}
        for event in events:
            if event.last in self.gates:
                event.members.setdefault("label", f"line{event.last}")
        for event in events:
            if event.first in gates:
                event.members = {"after": labels[gates[event.first]].members["label"], **event.members}
        return events

    def stretches(self):
        """The data lines in stretches. A stream that is opened or lost begins anew."""
        open_now, out = {}, []
        for line in self.session.lines:
            if line.verb in ("open", "lost"):
                open_now.pop(line.words[0], None)
            if line.verb != "data":
                continue
            authority, text = line.words
            stretch = open_now.get(authority)
            if stretch is None:
                stretch = open_now[authority] = Stretch()
                out.append(stretch)
            stretch.lines.append(line)
            try:
                stretch.data += bytes.fromhex(text)
            except ValueError:
                raise Problem((line.number,), "the bytes are an even number of hexadecimal digits") from None
            frames, rest = cut(stretch.data)
            if not rest or not may_follow(rest):
                del open_now[authority]
        return out

    def data_events(self, stretch):
        """The events of the lines of a stretch."""
        frames, rest = cut(stretch.data)
        lower = all(line.words[1].islower() or line.words[1].isdigit() for line in stretch.lines)
        if len(stretch.lines) > 1 and rest or not lower:
            why = "part of a frame that doesn't come to its end" if lower else "hexadecimal digits with capital letters"
            return [self.raw_event(line, rest_reason(rest) or why) for line in stretch.lines]
        comments, items = [], []
        for frame in frames:
            items.append(self.item(frame, comments))
        if rest:
            items.append(rest.hex())
            comments.append(rest_reason(rest) or "the beginning of a frame that doesn't come to its end")
        runs = self.runs(stretch.lines)
        first = self.data_event(runs[0], {"data": items[0] if len(items) == 1 else items}, len(runs) > 1)
        first.comments = comments
        events = [first]
        for run in runs[1:]:
            more = run is not runs[-1] or len(run) > 1
            events.append(self.data_event(run, {"rest": first.members["label"]}, more))
        return events

    def runs(self, lines):
        """Lines in runs of such as follow one another; a gate stands only at the first of a run, and only its last one
        is waited for."""
        runs = []
        for line in lines:
            last = runs[-1][-1].number if runs else 0
            if last + 1 == line.number and not line.gate and last not in self.gates:
                runs[-1].append(line)
            else:
                runs.append([line])
        return runs

    @staticmethod
    def data_event(run, members, cut_short):
        """The event of a run of data lines; where it is cut short, what is left stands in later ones."""
        sizes = [len(line.words[1]) // 2 for line in run]
        if "data" in members:
            members = {**authority_member(run[0]), **members}
        if "data" in members and cut_short:
            members["label"] = f"line{run[-1].number}"
        if len(sizes) > 1 or cut_short:
            even = len(set(sizes[:-1])) == 1 and sizes[-1] <= sizes[0] and not cut_short
            members["pieces"] = sizes[0] if even else sizes
        return Event(members, run[0].number, run[-1].number)

    @staticmethod
    def raw_event(line, why):
        members = {**authority_member(line), "data": line.words[1]}
        return Event(members, line.number, line.number, [why])

    def item(self, frame, comments):
        """The response of a frame, or its hexadecimal text where it can't be told as a response."""
        value = self.response(frame[5:])
        if value is None:
            read = self.messages.parse("DiscoveryResponse", frame[5:])
            comments.append("a frame whose response can't be read" if read is None
                            else "a frame whose response isn't in protobuf's own spelling")
            return frame.hex()
        comments += [f"a message that stays hexadecimal, since {why}" for why in self.messages.as_hex]
        return value

    def response(self, payload):
        """The description of a response that gives exactly these bytes; None where there is none."""
        self.messages.as_hex.clear()
        message = self.messages.parse("DiscoveryResponse", payload)
        if message is None:
            return None
        url = message.type_url
        value = {"type": KINDS[url]} if url in KINDS else {"type" if "/" in url else "type_url": url}
        if message.version_info:
            value["version"] = message.version_info
        if message.nonce:
            value["nonce"] = message.nonce
        try:
            if message.resources:
                value["resources"] = [self.messages.any_of(one, url) for one in message.resources]
            more = self.messages.object_of(message).get(OTHER)
            if more:
                value[OTHER] = more
            again = Builder(Document("", {}, {}), self.messages).response(value, ())
        except (ValueError, Problem):
            return None
        return value if again == payload else None

    @staticmethod
    def members(line):
        """The members of the event of a line that has no data."""
        words = line.words
        if line.verb in ("open", "lost"):
            return {line.verb: words[0]}
        if line.verb == "sweep":
            return {"sweep": None}
        if line.verb == "time":
            return {"time": number(words[0], line)}
        if line.verb == "endpoint":
            return {"endpoint": words[0], "state": words[1]}
        members = {line.verb: number(words[0], line), "caller": line.caller}
        if line.verb == "commit":
            return members
        members["word"] = number(words[1], line)
        if line.verb == "start":
            members["path"] = words[2]
            if words[3:]:
                members["headers"] = headers(words[3:], line)
        return members


def authority_member(line):
    """The member of a data line's authority; none for the default one."""
    return {} if line.words[0] == "-" else {"authority": line.words[0]}


def headers(words, line):
    """The headers of a call: an object, where each name stands once and each value in its usual spelling."""
    pairs = [word.partition("=") for word in words]
    if not all(equals for _, equals, _ in pairs):
        raise Problem((line.number,), "a header is NAME=VALUE")
    values = [header_value(value) for _, _, value in pairs]
    names = [name for name, _, _ in pairs]
    if None not in values and len(set(names)) == len(names):
        return dict(zip(names, values))
    return [{"name": name, "escaped": raw} if value is None else {"name": name, "value": value}
            for (name, _, raw), value in zip(pairs, values)]


def number(text, line):
    """A number of a line."""
    if not text.isascii() or not text.isdigit() or str(int(text[:25])) != text:
        raise Problem((line.number,), f"{text} isn't a number as a session has it")
    return int(text)


def cut(data):
    """The complete frames that some bytes begin with, and the bytes after them."""
    frames, at = [], 0
    while at + 5 <= len(data) and data[at] == 0:
        end = at + 5 + int.from_bytes(data[at + 1:at + 5], "big")
        if end > len(data) or end - at - 5 > LONGEST:
            break
        frames.append(data[at:end])
        at = end
    return frames, data[at:]


def may_follow(rest):
    """Whether a frame that begins so may come to its end."""
    return rest[0] == 0 and (len(rest) < 5 or int.from_bytes(rest[1:5], "big") <= LONGEST)


def rest_reason(rest):
    """Why no frame begins with these bytes; empty where one may."""
    if not rest or may_follow(rest):
        return ""
    size = int.from_bytes(rest[1:5], "big")
    return "a compressed frame" if rest[0] else f"a frame of {size} bytes, which is too long"
