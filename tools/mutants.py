"""The inputs that tools/fuzz.py plays: damaged sessions, bootstraps, responses, resources and frames, made of those in
tests/corpus/ and examples/."""

import pathlib
import sys
import typing

sys.path.insert(0, str(pathlib.Path(__file__).resolve().parent))
sys.path.insert(0, str(pathlib.Path(__file__).resolve().parent.parent / "tests"))
import corpus  # noqa: E402
import mutation  # noqa: E402
import player  # noqa: E402
import quick_damage  # noqa: E402
import wire  # noqa: E402

URLS = {"listener": wire.LISTENER, "route": wire.ROUTE, "cluster": wire.CLUSTER, "endpoint": wire.ENDPOINT}
# What stands before and behind a resource that is alone in a response.
AROUND = {kind: (wire.text(1, url) + b"\x12", wire.text(4, url)) for kind, url in URLS.items()}
BOOT = b'boot {"xds_servers":[{"server_uri":"ms:1"}],"node":{"id":"n"},"authorities":{"a.example":{}}}'
TARGETS = [b"xds:///svc", b"xds:svc", b"xds://a.example/svc", b"xds://b.example/svc", b"xds:", b"xds:///x%s", b"dns:svc",
           b"xds:////x", b"xds://a.example//", b"xds://a.example/x[1]%"]
GOOD_CLUSTERS = ("c", "c0", "web", "a")
# Of how many inputs, of at most how many bytes, quick damage begins in a session, and how often these were damaged before.
SEEDS, LONGEST_SEED, OFTEN = 250, 600, [0, 0, 0, 1, 1, 2, 3]
# How many lines and bytes such a session has at most, how many bytes of a response stand around a resource that is alone in
# it, and how many inputs lie between two lines of other kinds.
MOST_LINES, MOST_DATA, MOST_AROUND, PAUSE = 19_900, 4_900_000, 190, 16
IN_A_LINE = (1, 2, 3)


class Made(typing.NamedTuple):
    """A session, how many inputs it has, and how many responses that are good."""

    text: bytes
    inputs: int = 1
    good_responses: int = 0


class Inputs:
    """What is damaged: the sessions, responses and resources of the corpus and of the examples."""

    def __init__(self, lines):
        examples = sorted((player.HOME / "examples").glob("*.session"))
        self.sessions = [row["session"] for row in corpus.read("histories")] + [path.read_bytes() for path in examples]
        self.sessions = [text for text in self.sessions if len(text) < 40_000 and text.count(b"\n") <= lines]
        self.payloads = sorted({data for text in self.sessions for data in payloads_of(text)})
        rows = {(list(URLS)[row["kind"]], row["value"]) for row in corpus.read("resources")}
        self.resources = sorted(rows | set(resources_of(self.payloads)))

    def seeds_of_resources(self, r):
        """Some resources, each with its kind, of which damaged ones are made quickly; most of them are damaged already."""
        damage = mutation.Damage(r, [value for _, value in self.resources])
        some = r.choices([it for it in self.resources if len(it[1]) <= LONGEST_SEED], k=SEEDS)
        return [(kind, quick_damage.Seed(damaged_so_often(damage, value, r.choice(OFTEN)))) for kind, value in some]

    def seeds_of_payloads(self, r):
        """The same of the messages of responses."""
        damage = mutation.Damage(r, self.payloads)
        some = r.choices([it for it in self.payloads if len(it) <= LONGEST_SEED], k=SEEDS)
        return [quick_damage.Seed(damaged_so_often(damage, payload, r.choice(OFTEN))) for payload in some]


def damaged_so_often(damage, message, times):
    """A message after so many changes."""
    for _ in range(times):
        message = damage.of_message(message)
    return message


def payloads_of(text):
    """The messages of a session's data lines that are complete frames."""
    for line in text.split(b"\n"):
        words = line.split(b" ")
        if b"data" not in words[:4]:
            continue
        try:
            data = bytes.fromhex(words[-1].decode())
        except ValueError:
            continue
        while len(data) >= 5 and 5 + int.from_bytes(data[1:5], "big") <= len(data):
            end = 5 + int.from_bytes(data[1:5], "big")
            yield data[5:end]
            data = data[end:]


def resources_of(payloads):
    """The resources of responses, each with its kind."""
    names = {url.encode(): kind for kind, url in URLS.items()}
    for payload in payloads:
        for number, _, body in mutation.fields(payload) or []:
            parts = {it[0]: it[2] for it in mutation.fields(body) or []} if number == 2 and isinstance(body, bytes) else {}
            if parts.get(1) in names and isinstance(parts.get(2), bytes):
                yield names[parts[1]], parts[2]


def good_frames():
    """A listener, routes and clusters as they are asked for, each in a response of its own."""
    names = (*GOOD_CLUSTERS, "xdstp://a.example/envoy.config.cluster.v3.Cluster/c")
    mine = wire.weighted_route("", [(name, 1) for name in names])
    host = wire.virtual_host("h", ["*"], [mine])
    return [wire.frame(wire.response("1", "n1", wire.LISTENER, [wire.named_listener("svc", "r")])),
            wire.frame(wire.response("1", "n2", wire.ROUTE, [wire.route_configuration("r", [host])])),
            wire.frame(wire.response("1", "n3", wire.CLUSTER, [wire.eds_cluster(name) for name in GOOD_CLUSTERS]))]


def asked(target=b"xds:///svc"):
    """The lines of a session that comes to ask for resources of each kind, on both of its streams."""
    return [b"xds-session 1", BOOT, b"target " + target, b"callers 2", b"d open -", b"d open +a.example",
            *(b"d data - " + frame.hex().encode() for frame in good_frames())]


def good_lines():
    """Lines with good responses: those above in one line and in three, and endpoints of the clusters."""
    zones = [wire.locality("z", [f"10.0.0.{n}", f"10.0.1.{n}"]) for n in range(1, 5)]
    ends = [wire.assignment(name, [zone]) for name, zone in zip(GOOD_CLUSTERS, zones)]
    frames = [b"".join(good_frames()), *good_frames(), wire.frame(wire.response("1", "n4", wire.ENDPOINT, ends))]
    return [b"d data - " + frame.hex().encode() for frame in frames]


def mutant_session(r, inputs, _):
    """A session with one to four kinds of damage."""
    text, damage = r.choice(inputs.sessions), mutation.Damage(r, inputs.sessions)
    for _ in range(r.choice([1, 1, 2, 2, 3, 4])):
        text = damage.of_session(text)
    return Made(text)


def mutant_bootstrap(r, inputs, _):
    """A session with a damaged bootstrap or target."""
    lines = r.choice(inputs.sessions).split(b"\n")
    damage, word = mutation.Damage(r), lines[1].partition(b" ")[2] if len(lines) > 4 else b"{}"
    for _ in range(r.choice([1, 1, 2, 3])):
        word = damage.of_document(word)
    target = r.choice(TARGETS) if r.random() < 0.3 else lines[2].partition(b" ")[2] if len(lines) > 4 else b""
    target = damage.of_bytes(target) if r.random() < 0.2 else target
    return Made(b"\n".join([*lines[:1], b"boot " + word, b"target " + target, *lines[3:12]]))


def mutant_response(r, inputs, damage):
    """The payload of a response: a damaged one, or one of damaged resources of one kind."""
    if r.random() < 0.4:
        return damage.of_message(r.choice(inputs.payloads))
    kind, first = r.choice(inputs.resources)
    some = [first] + [value for it, value in r.choices(inputs.resources, k=r.choice([0, 1, 3, 8])) if it == kind]
    some = [damage.of_message(value) if r.random() < 0.7 else value for value in some]
    return wire.response(str(r.randrange(9)), f"n{r.randrange(99)}", URLS[kind], some)


def endpoint_line(r, states):
    """A line with the state of an endpoint."""
    return b"d endpoint 10.0.%d.%d:80 %s" % (r.randrange(2), r.randrange(1, 5), r.choice(states))


def mutant_messages(r, inputs, batch):
    """A session of so many damaged responses among other lines."""
    lines, damage = asked(), mutation.Damage(r, inputs.payloads)
    now = call = 0
    for _ in range(batch):
        frame = wire.frame(mutant_response(r, inputs, damage))
        frame = damage.of_frames(frame) if r.random() < 0.1 else frame
        authority = b"+a.example" if r.random() < 0.2 else b"-"
        lines.append(b"d data %s %s" % (authority, frame.hex().encode() or b"00"))
        turn = r.randrange(12)
        if turn < 4:
            lines.append(b"d open " + (authority if turn < 3 else b"-"))
        elif turn == 4:
            now += r.choice([0, 1, 5_000, 10_000, 15_000, 900_000])
            lines.append(b"d time %d" % now)
        elif turn == 5:
            lines.append(endpoint_line(r, [b"ready", b"failing", b"idle"]))
        elif turn == 6:
            call += 1
            lines.append(b"c %d start %d %d %s" % (call % 2 + 1, call, r.getrandbits(64), r.choice([b"/a", b"/p.S/M", b"/"])))
        elif turn in (7, 8) and call:
            some = r.randrange(max(1, call - 5), call + 1)
            what = b"commit %d" % some if turn == 7 else b"pick %d %d" % (some, r.getrandbits(64))
            lines.append(b"c %d %s" % (some % 2 + 1, what))
    return Made(b"\n".join(lines), batch)


def alone(kind, value):
    """The frame of a response that has this resource alone, without a version and a nonce."""
    head, tail = AROUND[kind]
    body = head + quick_damage.length_of(len(value)) + value
    payload = b"\x12" + quick_damage.length_of(len(body)) + body + tail
    return b"\0" + len(payload).to_bytes(4, "big") + payload


def damaged_frame(n, frame, other):
    """A frame, by a random number, that is doubled or joined by others; or one whose flag or length is another, or that is cut
    or joined by a part, after which a stream may read no further frame."""
    n, turn = divmod(n, 8)
    if turn == 0:
        return frame + frame
    if turn == 1:
        return wire.frame(b"") * (n % 3 + 1) + frame
    if turn == 2:
        return frame + other
    if turn == 3:
        return bytes((n % 255 + 1,)) + frame[1:]
    if turn == 4:
        length = (len(frame) - 5 + (-1, 1, -5, 5, 65_536, 4_194_304, 2 ** 31)[n % 7]) % 2 ** 32
        return frame[:1] + length.to_bytes(4, "big") + frame[5:]
    if turn == 5:
        return frame[:n % len(frame)]
    if turn == 6:
        return frame + other[:n % len(other)]
    at = n % len(frame)
    return frame[:at] + bytes((n >> 16 & 255,)) + frame[at + 1:]


class Push:
    """A session that grows: lines with damaged inputs come on streams, among good responses and other lines."""

    def __init__(self, r):
        self.r, self.good = r, good_lines()
        self.lines, self.inputs, self.bytes, self.now = asked(), 0, 0, 0
        self.good_responses = len(good_frames())

    def has_room(self):
        return len(self.lines) < MOST_LINES and self.bytes < MOST_DATA

    def add(self, authority, frames):
        """A line with inputs, or two that have parts of it and, now and then, a line of another kind."""
        self.inputs += len(frames)
        data = b"".join(frames)
        at = self.r.randrange(len(data)) if self.r.getrandbits(3) == 0 else 0
        for part in filter(None, (data[:at], data[at:])):
            self.add_line(b"d data %s %s" % (authority, part.hex().encode()))
        if len(self.lines) % PAUSE == 0:
            self.pause()

    def add_line(self, line):
        self.lines.append(line)
        self.bytes += len(line) // 2

    def add_good(self, line, responses):
        self.add_line(line)
        self.good_responses += responses

    def open(self, authority):
        """Opens a stream anew; good responses let it ask for resources of each kind."""
        self.add_line(b"d open " + authority)
        if self.r.getrandbits(3) == 0:
            self.add_good(self.good[0], len(good_frames()))

    def pause(self):
        """A good response, a later time, or a state of an endpoint."""
        r, turn = self.r, self.r.randrange(8)
        if turn < 5:
            self.add_good(r.choice(self.good[1:]), 1)
        elif turn == 5:
            self.now += r.choice([0, 1, 5_000, 10_000, 15_000, 900_000])
            self.add_line(b"d time %d" % self.now)
        else:
            self.add_line(endpoint_line(r, [b"ready", b"ready", b"failing"]))

    def made(self):
        return Made(b"\n".join(self.lines), self.inputs, self.good_responses)


def pushed_frames(r, inputs, batch):
    """A session of damaged messages, several in a line, or of damaged frames, each behind a message at most; on two streams,
    which are opened anew after each line, since it may have ended one."""
    session, payloads, resources = Push(r), inputs.seeds_of_payloads(r), inputs.seeds_of_resources(r)
    seen = set()
    while session.has_room() and session.inputs < batch:
        messages = [wire.frame(seed.damaged(r.getrandbits(64))) for seed in r.choices(payloads, k=r.choice(IN_A_LINE))]
        messages += [alone(kind, seed.damaged(r.getrandbits(64))) for kind, seed in r.choices(resources, k=r.choice(IN_A_LINE))]
        r.shuffle(messages)
        if r.getrandbits(1):
            messages = [*messages[2:3], damaged_frame(r.getrandbits(64), *messages[:2])]
        fresh = [frame for frame in messages if frame and frame not in seen]
        authority = b"-" if r.getrandbits(2) else b"+a.example"
        if fresh:
            session.add(authority, fresh)
            session.open(authority)
        seen.update(fresh)
    return session.made()


def damaged_resources(r, inputs, batch):
    """So many damaged resources, each with its kind, of which no two are the same; fewer where a session has no room for
    more."""
    seeds, kinds, found, room = inputs.seeds_of_resources(r), list(URLS), {}, MOST_DATA
    while len(found) < batch and room > 0:
        n, place = divmod(r.getrandbits(96), SEEDS)
        n, turn = divmod(n, 64)
        kind, seed = seeds[place]
        resource = kinds[n & 3] if turn == 0 else kind, seed.damaged(n)
        if resource not in found:
            found[resource] = None
            room -= len(resource[1]) + MOST_AROUND
    return list(found)


def pushed_resources(r, inputs, batch):
    """A session of damaged resources, each alone in a response."""
    session = Push(r)
    for kind, value in damaged_resources(r, inputs, batch):
        session.add(b"-", [alone(kind, value)])
    return session.made()
