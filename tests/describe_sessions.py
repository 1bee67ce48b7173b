"""tests/describe_sessions.py: goes from descriptions to sessions and back by what tools/session.py is made of.

All sessions of examples/ stand in the index and go both ways, and so do some that are cut, gated and escaped. Recorded
responses in each framing give their data lines, a config dump in both spellings of its fields gives one session, and
each wrong description is told by its place with its sentence.
"""

import json
import pathlib
import subprocess
import sys

ROOT = pathlib.Path(__file__).resolve().parent.parent
sys.path.insert(0, str(ROOT / "tools"))
from describing import build, explain, from_dump, layout, recorded  # noqa: E402
from describing.messages import Messages  # noqa: E402
from describing.places import Problem, read_document  # noqa: E402

HEAD = """xds-session 1
boot {"xds_servers":[{"server_uri":"ms:1"}],"authorities":{"a.example":{}}}
target xds:///svc
callers 2
"""
GIVEN = """bootstrap: {xds_servers: [{server_uri: ms:1}], authorities: {a.example: {}}}
target: xds:///svc
callers: 2
events:
"""


def session_of(messages, name, text):
    """The session of a description's text, or the fault as it is told."""
    try:
        document = read_document(name, text.encode() if isinstance(text, str) else text)
    except Problem as problem:
        return f"{problem.document.place(problem.path)}{problem.sentence}"
    try:
        return build.Builder(document, messages).session()
    except Problem as problem:
        return f"{(problem.document or document).place(problem.path)}{problem.sentence}"


def goes_both_ways(messages, name, data):
    """Whether a session's descriptions, in YAML and in JSON, give its bytes."""
    described = explain.describe(name, data, messages)
    return (session_of(messages, "x.yaml", layout.yaml_text(*described)) == data
            and session_of(messages, "x.json", layout.json_text(*described)) == data)


def examples(messages):
    """Each example, from its description and from its session; and whether the index has it."""
    index = (ROOT / "examples/README.md").read_text()
    for path in sorted((ROOT / "examples").glob("*.session")):
        data = path.read_bytes()
        description = path.with_suffix(".yaml")
        same = description.exists() and session_of(messages, str(description), description.read_bytes()) == data
        yield f"{path.stem} from its description", same
        yield f"{path.stem} to a description and back", goes_both_ways(messages, path.name, data)
        yield f"{path.stem} in the index", f"({description.name})" in index


def frames():
    """The frames of an example's data lines."""
    text = (ROOT / "examples/first_path.session").read_text()
    return [bytes.fromhex(line.split(" ")[3]) for line in text.splitlines() if line.startswith("d data")]


def odd_sessions():
    """Sessions whose spelling has to be kept: frames cut among other lines and gates, two streams at once, capital
    letters, escapes, a bootstrap with spaces, no line feed at the end."""
    one, two, _ = (frame.hex() for frame in frames())
    yield "cut and gated", HEAD + "\n".join([
        "d open -", "d open +a.example", f"d data - {one[:20]}", f"d data +a.example {two[:2]}",
        f"@7 d data - {one[20:60]}", f"d data - {one[60:62]}", f"d data +a.example {two[2:80]}",
        "@10 c 1 start 0 7 /a", f"d data - {one[62:]}{two[:30]}", f"@11 d data +a.example {two[80:]}", f"d data - {two[30:]}", "d lost -", f"d data - {one[:40]}", "d open -",
        f"d data - {one}{two}{one[:4]}", "d data - 0100000000", f"d data - {two.upper()}", "d sweep", ""])
    yield "escaped", HEAD + "\n".join([
        "d endpoint [::1]:80 idle", "c 2 start 65535 18446744073709551615 /a%20b x=%41 y=a%20b=%c3%a9 x=%C3%A9 z=",
        "c 1 start 1 0 /b a.-_9=1 b==%25", "c 2 pick 65535 1", "@7 c 2 commit 65535"])
    yield "bootstrap with spaces", HEAD.replace('"a.example":{}', '"a.example": {"x": 1.50}') + "d time 5\n"


def recorded_lines():
    """Each framing of recorded responses, found out and named."""
    payloads = [frame[5:] for frame in frames()]
    wanted = [f"d data +a {frame.hex()}" for frame in frames()]
    sized = {"grpc": lambda size: b"\0" + size.to_bytes(4, "big"), "length4": lambda size: size.to_bytes(4, "big"),
             "varint": lambda size: bytes([size & 127 | 128, size >> 7]) if size > 127 else bytes([size])}
    for framing, head in sized.items():
        data = b"".join(head(len(payload)) + payload for payload in payloads)
        yield framing, recorded.data_lines("+a", data) == recorded.data_lines("+a", data, framing) == wanted
    yield "single", recorded.data_lines("+a", payloads[0]) == wanted[:1]


def h2(kind, stream, body=b"", flags=0):
    """A frame of HTTP/2 (RFC 9113, 4.1): the length in three bytes, the type, the flags, and the stream below a reserved bit."""
    return len(body).to_bytes(3, "big") + bytes([kind, flags]) + stream.to_bytes(4, "big") + body


DATA, HEADERS, RST_STREAM, SETTINGS, PING, GOAWAY, WINDOW_UPDATE, CONTINUATION = 0, 1, 3, 4, 6, 7, 8, 9
END_STREAM, PADDED = 1, 8
BEGIN = h2(SETTINGS, 0, bytes.fromhex("000300000064")) + h2(SETTINGS, 0, flags=1) + h2(WINDOW_UPDATE, 0, bytes.fromhex("0000ffff"))
PREFACE = b"PRI * HTTP/2.0\r\n\r\nSM\r\n\r\n"


def padded(body, size):
    """The body of a DATA frame with so many bytes of padding (RFC 9113, 6.1)."""
    return bytes([size]) + body + bytes(size)


def captures():
    """What a server sent on connections of HTTP/2, and the frames whose data lines are wanted."""
    one, two, *_ = frames()
    yield "in frames as they come", BEGIN + h2(HEADERS, 1, b"\x88", 4) + b"".join(
        h2(DATA, 1, frame) for frame in frames()) + h2(HEADERS, 1, b"\x40", END_STREAM | 4), frames()
    yield "after the client's preface", PREFACE + BEGIN + h2(DATA, 1, one), [one]
    yield "byte by byte", BEGIN + b"".join(h2(DATA, 1, one[at:at + 1]) for at in range(len(one))), [one]
    yield "cut anywhere", BEGIN + b"".join([
        h2(HEADERS, 1, b"\x88"), h2(CONTINUATION, 1, b"", 4), h2(DATA, 1, one[:3]), h2(PING, 0, bytes(8)), h2(DATA, 1),
        h2(DATA, 1, padded(one[3:60], 7), PADDED), h2(DATA, 1, padded(b"", 2), PADDED), h2(0xAA, 1, b"unknown"),
        h2(DATA, 1 | 1 << 31, one[60:] + two + one[:9]),
        h2(DATA, 1, padded(one[9:], 0), PADDED | END_STREAM), h2(GOAWAY, 0, bytes(8))]), [one, two, one]
    yield "on two streams", BEGIN + b"".join([
        h2(DATA, 1, one[:50]), h2(DATA, 3, two[:70]), h2(DATA, 1, one[50:]), h2(DATA, 3, two[70:])]), [one, two]
    yield "after a stream that broke off", BEGIN + b"".join([
        h2(DATA, 1, two), h2(DATA, 1, one[:50]), h2(RST_STREAM, 1, bytes(4)), h2(DATA, 3, one)]), [two, one]
    yield "beside load reports", BEGIN + h2(DATA, 3, bytes.fromhex("00000000030a0163")) + h2(DATA, 1, one), [one]


def captured_lines():
    """Each capture, found out and named; and those that aren't right, told by their place."""
    for name, data, wanted in captures():
        lines = [f"d data - {frame.hex()}" for frame in wanted]
        yield f"a capture {name}", recorded.data_lines("-", data) == recorded.data_lines("-", data, "http2") == lines
    one = frames()[0]
    begun = BEGIN + h2(DATA, 1, one)
    at_end = f"from byte {len(begun)} on no complete message follows in the framing http2"
    for name, rest in [
            ("that is cut in a frame", h2(DATA, 1, one)[:-1]),
            ("that is cut in a message", h2(DATA, 1, one[:-1]) + h2(PING, 0, bytes(8))),
            ("with padding above its frame", h2(DATA, 1, b"\x03ab", PADDED)),
            ("with data on no stream", h2(DATA, 0, one)),
            ("with a compressed message", h2(DATA, 1, b"\1" + one[1:]))]:
        yield f"a capture {name}", told_problem(begun + rest) == told_problem(begun + rest, "http2") == at_end
    request = bytes.fromhex("0000000008" "1a0161" "2203612f62")
    none = "there are no responses in the framing http2"
    yield "a capture without responses", told_problem(BEGIN) == none
    yield "a capture of what the client sent", told_problem(PREFACE + BEGIN + h2(DATA, 1, request)) == none
    later = "from byte 0 on no complete message follows in the framing http2"
    yield "a capture from a later place on", told_problem(h2(DATA, 1, one), "http2") == later


def told_problem(data, framing=None):
    """What is told of recorded bytes; the data lines where nothing is wrong with them."""
    try:
        return recorded.data_lines("-", data, framing)
    except Problem as problem:
        return problem.sentence


def camel_case(value):
    """A value with the names of its members in camelCase."""
    if isinstance(value, list):
        return [camel_case(one) for one in value]
    if not isinstance(value, dict):
        return value
    parts = {name: name.split("_") for name in value}
    return {first + "".join(part.capitalize() for part in rest): camel_case(value[name])
            for name, (first, *rest) in parts.items()}


def dump_lines(messages):
    """A config dump of resources in both spellings, and in two forms: their description's session is the same."""
    head, events = explain.describe("", (ROOT / "examples/first_path.session").read_bytes(), messages)
    responses = [event.members["data"] for event in events if "data" in event.members]
    resources = [{"@type": build.URLS[response["type"]], **one} for response in responses
                 for one in response["resources"]]
    dump = {"configs": [{"version_info": "1", "dynamic": [{"name": "x", "active_state": {"anything": one}}]}
                        for one in resources]}
    generic = camel_case({"config": [{"generic_xds_configs": [{"version_info": "1", "xds_config": one}
                                                              for one in resources]}]})
    made = []
    for value in (dump, camel_case(dump), generic):
        document = read_document("dump.json", json.dumps(value).encode())
        made.append(layout.yaml_text(*from_dump.description(document, messages)))
    yield "a config dump in both spellings", made[0] == made[1] == made[2] and "10.0.0.1:80" in made[0]
    yield "its resources and the example's", all(
        line in session_of(messages, "x.yaml", made[0]).decode().replace("listener1", "n1").splitlines()
        for line in ["d open -", "d endpoint 10.0.0.1:80 ready", "c 1 pick 0 0"])


def route(member):
    """A description with a listener whose one route has this member."""
    return GIVEN + f"""- open: "-"
- data:
    type: listener
    resources:
    - name: svc
      apiListener:
        apiListener:
          "@type": type.googleapis.com/envoy.extensions.filters.network.http_connection_manager.v3.HttpConnectionManager
          routeConfig:
            virtualHosts: [{{name: h, domains: ["*"], routes: [
              {member}]}}]
"""


ROUTE = "events[1].data.resources[0].apiListener.apiListener.routeConfig.virtualHosts[0].routes[0]"
FAULTS = [
    ("", "x: a description is an object with bootstrap, target, callers and events"),
    ('{"a":\n 1', "x:2: this isn't JSON: Expecting ',' delimiter (column 3)"),
    ('{"a": 1, "a": 1}', "x: the member a stands twice in one object"),
    (b"a: 1\nb: \xff", "x:2: this isn't UTF-8"),
    ('{"target": "\\ud800"}', "x: target: a text here has half of a surrogate pair, which UTF-8 can't write"),
    (GIVEN + "events: []\n", "x:5: events: this member stands twice in its object"),
    (GIVEN.replace("xds:///svc", "dns:svc"), "x:2: target: a target is xds:NAME, xds:///NAME or xds://AUTHORITY/NAME"),
    (GIVEN + "- tme: 5\n", "x:5: events[0]: an event has exactly one of open, lost, time, sweep, endpoint, data, "
                           "rest, start, pick, commit"),
    (GIVEN + "- {time: 5, at: 3}\n",
     "x:5: events[0].at: this member isn't known; the members here are time, after, label"),
    (GIVEN + "- time: 5\n- time: 4\n", "x:6: events[1].time: time doesn't fall, and 5 stood before"),
    (GIVEN + "- open: b\n",
     "x:5: events[0].open: the authority is one of the bootstrap: +a.example, - (- is the default one)"),
    (GIVEN + "- {endpoint: web:80, state: ready}\n",
     "x:5: events[0].endpoint: an endpoint is a numeric address with its port, as 10.0.0.1:80"),
    (GIVEN + "- {after: x, sweep: }\n",
     "x:5: events[0].after: this is the label of an earlier event, or the number of an earlier line"),
    (GIVEN + "- data: 0\n", "x:5: events[0].data: an even number of hexadecimal digits is wanted here"),
    (GIVEN + "- data: {type: listner}\n",
     "x:5: events[0].data.type: a type is one of listener, route, cluster, endpoint, or a type URL"),
    (GIVEN + "- data:\n    type: cluster\n    resources:\n    - name: a\n      lbPolicy: BEST\n",
     "x:9: events[0].data.resources[0].lbPolicy: one of ROUND_ROBIN, LEAST_REQUEST, RING_HASH, RANDOM, MAGLEV, "
     "CLUSTER_PROVIDED, LOAD_BALANCING_POLICY_CONFIG is wanted here, and not BEST"),
    (route("{match: {prefix: /, path: /}}"),
     f"x:15: {ROUTE}.match.path: prefix and path can't stand beside each other"),
    (route("{match: {prefix: /, caseSensitive: 0}}"),
     f"x:15: {ROUTE}.match.caseSensitive: true or false is wanted here"),
    (route("{match: [/]}"), f"x:15: {ROUTE}.match: an object with the fields of RouteMatch is wanted here"),
    (GIVEN + "- start: 0\n  path: a\n", "x:6: events[0].path: a path begins with / and has no space"),
    (GIVEN + "- {start: 0, path: /a}\n- {pick: 0, caller: 2}\n", "x:6: events[1].pick: the call 0 is one of caller 1"),
    (GIVEN + '- {data: "0001", pieces: [1]}\n',
     "x:5: events[0].pieces: 1 bytes are left; give the event a label, and send them by `rest`"),
]


def leaves_out(messages):
    """What isn't read is left out, and noted once."""
    messages.left_out.seen.clear()
    made = session_of(messages, "x", route("{match: {prefix: /}, route: {cluster: web, timeout: 1s}, metadata: {}}"))
    without = session_of(messages, "x", route("{match: {prefix: /}, route: {cluster: web}}"))
    return made == without and set(messages.left_out.seen) == {"RouteAction.timeout", "Route.metadata"}


def command(*words, given=b""):
    """What the command answers: its status, its output and its lines on standard error."""
    ran = subprocess.run([sys.executable, ROOT / "tools/session.py", *words], input=given, capture_output=True,
                         check=False)
    return ran.returncode, ran.stdout, ran.stderr.decode()


def doc_example_holds(messages):
    """Whether the example of docs/DESCRIPTIONS.md is a description, and goes both ways."""
    text = (ROOT / "docs/DESCRIPTIONS.md").read_text().partition("```yaml\n")[2].partition("```")[0]
    made = session_of(messages, "x.yaml", text)
    return isinstance(made, bytes) and goes_both_ways(messages, "x", made)


def commands():
    """The command itself."""
    path = ROOT / "examples/first_path"
    data, described = path.with_suffix(".session").read_bytes(), path.with_suffix(".yaml")
    yield "the command, from a description", command(described) == (0, data, "")
    status, text, _ = command("--explain", "-", given=data)
    yield "the command, there and back", status == 0 and command("-", given=text) == (0, data, "")
    yield "the command's fault", command("--explain", described) == (
        2, b"", f"session.py: {described}:1: this line has to be `xds-session 1`\n")
    yield "a file that isn't there", command("/none") == (2, b"", "session.py: /none: No such file or directory\n")
    yield "no words", command()[0] == 2 and command("-h")[0] == 0


def main():
    messages, tried = Messages(), []
    tried += examples(messages)
    tried += ((name, goes_both_ways(messages, name, text.encode())) for name, text in odd_sessions())
    tried += recorded_lines()
    tried += captured_lines()
    tried += dump_lines(messages)
    for given, wanted in FAULTS:
        got = session_of(messages, "x", given)
        tried.append((f"{got}, where {wanted} is wanted", got == wanted))
    told = session_of(messages, "x", "\na: b: c")
    tried.append(("a text that isn't YAML", told.startswith("x:2: this isn't YAML: ")))
    tried.append(("what is left out", leaves_out(messages)))
    tried.append(("the example of docs/DESCRIPTIONS.md", doc_example_holds(messages)))
    tried += commands()
    failed = [name for name, good in tried if not good]
    for name in failed:
        print(f"describe_sessions: {name}: wrong")
    print(f"describe_sessions: {len(tried) - len(failed)} passed, {len(failed)} failed")
    return bool(failed)


if __name__ == "__main__":
    sys.exit(main())
