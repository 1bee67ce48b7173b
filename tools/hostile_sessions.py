#!/usr/bin/env python3
"""Large, long and deep sessions: what a client may be given, at the limits that a session has and that messages have.

    hostile_sessions.py            the names, with what each has
    hostile_sessions.py NAME       writes that session

Each case has a name, a sentence, a bound for the program's peak memory in MiB, whether its report is one text, and the
stack in which it is played. A session whose report is one text is written with gates that leave the order of its lines
(tests/gating.py); of any other one only the report's last line is the same on threads.
"""

import dataclasses
import pathlib
import sys

HERE = pathlib.Path(__file__).resolve().parent
sys.path[:0] = [str(HERE), str(HERE.parent / "tests")]
import wire  # noqa: E402
from gating import gated  # noqa: E402

SERVER = '"xds_servers":[{"server_uri":"ms:1"}],"node":{"id":"n"}'
MOST_BYTES, MOST_LINES, MOST_DRIVER, MOST_CALLS = 67_108_864, 200_000, 20_000, 65_536
MOST_MESSAGE, MOST_CLUSTERS, LONGEST_CHAIN = 4_194_304, 1_024, 16
WORD = 11_400_714_819_323_198_485


class Session:
    """The lines of a session that grows. Line numbers count from 1."""

    def __init__(self, callers=1, boot="{" + SERVER + "}", target="xds:///svc"):
        self.lines = ["xds-session 1", f"boot {boot}", f"target {target}", f"callers {callers}"]

    def add(self, *lines):
        self.lines.extend(lines)
        return len(self.lines)

    def data(self, *frames, authority="-"):
        return self.add(f"d data {authority} {b''.join(frames).hex()}")

    def responses(self, kind, *resources, version="1"):
        """A line with one response that has these resources."""
        return self.data(wire.frame(wire.response(version, f"n{len(self.lines)}", kind, resources)))

    def text(self):
        return "".join(line + "\n" for line in self.lines).encode()


def hosts(first, count):
    """So many addresses."""
    return [f"10.{n >> 16 & 255}.{n >> 8 & 255}.{n & 255}" for n in range(first, first + count)]


def short_names(count):
    """So many short names: letters and digits, then two of them, and so on."""
    signs = "abcdefghijklmnopqrstuvwxyz0123456789"
    out = []
    for n in range(count):
        name = ""
        while n >= 0:
            name, n = signs[n % 36] + name, n // 36 - 1
        out.append(name)
    return out


def routes_to(*clusters):
    """A Listener with a host for all, whose one route leads to these clusters by equal weights."""
    host = wire.virtual_host("h", ["*"], [wire.weighted_route("", [(name, 1) for name in clusters])])
    return wire.listener("svc", wire.route_configuration("r", [host]))


def begun(callers=1, clusters=("web",), endpoints=2, **how):
    """A session that has come to its first snapshot: these clusters, each with so many ready endpoints."""
    session, ready = Session(callers, **how), []
    session.add("d open -")
    session.responses(wire.LISTENER, routes_to(*clusters))
    session.responses(wire.CLUSTER, *(wire.eds_cluster(name) for name in clusters))
    assignments = []
    for place, name in enumerate(clusters):
        mine = hosts(place * endpoints, endpoints)
        ready += mine
        assignments.append(wire.assignment(name, [wire.locality("z", mine)]))
    session.responses(wire.ENDPOINT, *assignments)
    session.add(*(f"d endpoint {host}:80 ready" for host in ready[:64]))
    return session


def call_lines(session, count, callers, last):
    """Starts, picks and commits of so many calls by so many callers, each caller's first line after a line. The calls of a
    caller stand one in another in groups of 64."""
    for caller in range(1, callers + 1):
        mine = list(range(caller - 1, count, callers))
        gate = f"@{last} "
        for first in range(0, len(mine), 64):
            group = mine[first:first + 64]
            for call in group:
                session.add(f"{gate}c {caller} start {call} {call * WORD % 2 ** 64} /shop.Cart/Add")
                gate = ""
            session.add(*(f"c {caller} pick {call} {call * WORD % 2 ** 64}" for call in group))
            session.add(*(f"c {caller} commit {call}" for call in group))


def lines():
    session = begun(16, ["c0", "c1"])
    call_lines(session, MOST_CALLS, 16, len(session.lines))
    while len(session.lines) < MOST_LINES:
        n = len(session.lines)
        session.add(f"d time {n}" if n % 2 else f"d endpoint 10.0.0.0:80 {'failing' if n % 4 else 'ready'}")
    return session.text()


def calls_held():
    session = begun(16, ["c0", "c1"])
    last = len(session.lines)
    for verb, more in (("start", " 7 /a"), ("pick", " 7"), ("commit", "")):
        for call in range(MOST_CALLS):
            gate = f"@{last} " if verb == "start" and call < 16 else ""
            session.add(f"{gate}c {call % 16 + 1} {verb} {call}{more}")
    return session.text()


def fields():
    session = begun(4)
    last = len(session.lines)
    for call in range(MOST_CALLS):
        gate = f"@{last} " if call < 4 else ""
        session.add(f"{gate}c {call % 4 + 1} start {call} 0 /a" + " a=" * 64)
    return session.text()


def driver_lines():
    session = begun(1, ["c0", "c1"])
    while len(session.lines) < MOST_DRIVER + 4:
        n = len(session.lines)
        turn = n % 6
        if turn == 0:
            session.add("d open -")
        elif turn == 1:
            session.responses(wire.LISTENER, routes_to("c0", f"c{n % 5}"), version=str(n))
        elif turn == 2:
            session.responses(wire.CLUSTER, *(wire.eds_cluster(f"c{k}") for k in range(5)), version=str(n))
        elif turn == 3:
            some = [wire.assignment(f"c{k}", [wire.locality("z", hosts(k + n % 3, 2))]) for k in range(5)]
            session.responses(wire.ENDPOINT, *some, version=str(n))
        else:
            session.add(f"d time {n * 100}" if turn == 4 else f"d endpoint 10.0.0.{n % 8}:80 {'failing' if n % 5 else 'ready'}")
    return session.text()


def entries():
    session = Session()
    session.add("d open -")
    while len(session.lines) < MOST_DRIVER + 4:
        session.data(wire.frame(b"") * 51)
    return session.text()


def boot_of_64_mib():
    pad = MOST_BYTES - len(begun(boot="{" + SERVER + ',"pad":""}').text())
    return begun(boot="{" + SERVER + ',"pad":"' + "x" * pad + '"}').text()


def paths_of_64_mib():
    session = begun()
    last = len(session.lines)
    for call in range(63):
        session.add(f"@{last} c 1 start {call} 0 /{'p' * 1_048_576}")
    session.add("c 1 start 63 0 /")
    session.lines[-1] += "q" * (MOST_BYTES - len(session.text()))
    return session.text()


def message_of_4_mib():
    session = Session()
    session.add("d open -")
    session.responses(wire.LISTENER, routes_to("web"))
    session.responses(wire.CLUSTER, wire.eds_cluster("web"))
    localities = [wire.locality(f"z{n}", hosts(n * 100, 100)) for n in range(1_380)]
    payload = wire.response("1", "n", wire.ENDPOINT, [wire.assignment("web", localities)])
    # (a field that isn't read fills it up: its number and its length take five bytes)
    payload += wire.delimited(9, b"x" * (MOST_MESSAGE - len(payload) - 5))
    session.data(wire.frame(payload[:MOST_MESSAGE]))
    session.add("d endpoint 10.0.0.0:80 ready", "c 1 start 0 0 /a", "c 1 pick 0 0", "c 1 commit 0")
    return session.text()


def localities_100000():
    session = Session()
    session.add("d open -")
    session.responses(wire.LISTENER, routes_to("web"))
    session.responses(wire.CLUSTER, wire.eds_cluster("web"))
    some = [wire.locality(name, ["1.1.1.1"]) for name in short_names(100_000)]
    session.responses(wire.ENDPOINT, wire.assignment("web", some))
    session.add("d endpoint 1.1.1.1:80 ready", *(f"d time {n}" for n in range(20)))
    session.add(f"@{len(session.lines)} c 1 start 0 0 /a", *(f"c 1 pick 0 {n * WORD % 2 ** 64}" for n in range(1_000)))
    return session.text()


def routes_of_4_mib():
    session, names = Session(), short_names(MOST_CLUSTERS)
    session.add("d open -")
    rules = [wire.route("path", f"/shop.Cart/Item{n}", names[n % len(names)]) for n in range(105_000)]
    routes = wire.route_configuration("r", [wire.virtual_host("h", ["*"], rules)])
    session.responses(wire.LISTENER, wire.listener("svc", routes))
    session.responses(wire.CLUSTER, *map(wire.eds_cluster, names))
    session.responses(wire.ENDPOINT, *(wire.assignment(name, []) for name in names))
    last = len(session.lines)
    session.add(*(f"@{last} c 1 start {n} 0 /shop.Cart/Item{104_999 - n}" for n in range(100)))
    return session.text()


def hosts_1024():
    session, names = Session(), short_names(MOST_CLUSTERS)
    session.add("d open -")
    some = [wire.virtual_host("", [f"{name}.example"], [wire.weighted_route("", [(it, 1) for it in names[n % 700:][:270]])])
            for n, name in enumerate(names[1:])]
    some.append(wire.virtual_host("h", ["*"], [wire.weighted_route("", [(it, 1) for it in names])]))
    session.responses(wire.LISTENER, wire.listener("svc", wire.route_configuration("r", some)))
    session.responses(wire.CLUSTER, *map(wire.eds_cluster, names))
    session.responses(wire.ENDPOINT, *(wire.assignment(it, [wire.locality("z", hosts(n, 2))]) for n, it in enumerate(names)))
    last = session.add(*(f"d endpoint {host}:80 {state}" for state in ("ready", "failing") for host in hosts(0, 60)))
    session.add(*(f"@{last} c 1 start {n} {n * WORD % 2 ** 64} /a" for n in range(1_000)))
    session.add(*(f"c 1 pick {n} {n * WORD % 2 ** 64}" for n in range(1_000)))
    return session.text()


def chains():
    session, names = Session(), short_names(MOST_CLUSTERS)
    session.add("d open -")
    session.responses(wire.LISTENER, routes_to(*names))
    # Each cluster of the host begins a chain of 16; its last cluster has two leaves below eight levels in common.
    found = [wire.aggregate(name, ["L2", "R2"]) for name in names]
    for level in range(2, LONGEST_CHAIN):
        session.responses(wire.CLUSTER, *found, version=str(level))
        children = [f"L{level + 1}", f"R{level + 1}"]
        found += [wire.aggregate(f"L{level}", children), wire.aggregate(f"R{level}", children)]
    session.responses(wire.CLUSTER, *found, version="16")
    found += [wire.eds_cluster(f"L{LONGEST_CHAIN}"), wire.eds_cluster(f"R{LONGEST_CHAIN}")]
    session.responses(wire.CLUSTER, *found, version="17")
    leaves = [wire.assignment(f"{side}{LONGEST_CHAIN}", [wire.locality("z", hosts(n, 2))]) for n, side in enumerate("LR")]
    session.responses(wire.ENDPOINT, *leaves)
    last = session.add("d endpoint 10.0.0.1:80 ready")
    session.add(f"@{last} c 1 start 0 0 /a", "c 1 pick 0 0", "c 1 commit 0")
    return session.text()


def too_deep_loops():
    session, names = Session(), short_names(MOST_CLUSTERS)
    session.add("d open -")
    session.responses(wire.LISTENER, routes_to(*names))
    # Each cluster has all clusters from the next one on as its children, the last one the first: loops of each length.
    # (Of so many, those that fit into a message.)
    some = [wire.aggregate(name, names[n + 1:n + 900] or names[:1]) for n, name in enumerate(names)]
    session.responses(wire.CLUSTER, *some)
    session.add("d sweep")
    return session.text()


def updates():
    session, names = begun(1, short_names(MOST_CLUSTERS)), short_names(MOST_CLUSTERS)
    last = len(session.lines)
    session.add(*(f"@{last} c 1 start {n} {n * WORD % 2 ** 64} /a" for n in range(1_000)))
    for turn in range(200):
        some = [names[(turn * 37 + n * 5) % MOST_CLUSTERS] for n in range(120)]
        session.responses(wire.ENDPOINT, *(wire.assignment(it, [wire.locality("z", hosts(turn, 2))]) for it in some))
        last = session.add(f"d endpoint 10.0.0.{turn}:80 ready")
        session.add(*(f"@{last} c 1 pick {turn * 5 + n % 5} {n * WORD % 2 ** 64}" for n in range(50)))
    return session.text()


def many_resources():
    session = begun()
    some = [wire.eds_cluster("web")] + [wire.eds_cluster(name) for name in short_names(40_000)]
    session.responses(wire.CLUSTER, *some, version="2")
    session.responses(wire.CLUSTER, *(wire.text(1, name) for name in short_names(30_000)), version="3")
    return session.text()


def names_of_1_mib():
    name = "n" * 1_048_576
    session = Session()
    session.add("d open -")
    session.responses(wire.LISTENER, routes_to(name))
    session.responses(wire.CLUSTER, wire.eds_cluster(name))
    session.responses(wire.CLUSTER, wire.text(1, "%" * 1_048_576), version="2")
    return session.text()


def many_streams():
    names = short_names(65_534)
    session = Session(boot="{" + SERVER + ',"authorities":{' + ",".join(f'"{name}":{{}}' for name in names) + "}}")
    session.add("d open -", *(f"d open +{name}" for name in names[:9_990]), *(f"d lost +{name}" for name in names[:9_990]))
    return session.text()


def deep_boot():
    return Session(boot="[" * 20_000_000).text()


def deep_boot_in_a_member():
    return begun(boot="{" + SERVER + ',"pad":' + "[" * 120 + "]" * 120 + "}").text()


def deep_patterns():
    session = begun()
    patterns = ["(" * 100_000 + ")" * 100_000, "[" * 100_000 + "a" + "]" * 100_000, "a|" * 100_000 + "a",
                "(?:" * 100_000, "a{1000}{1000}{1000}", "(?i)" * 100_000, "((((a*)*)*)*)*", r"\p{L}{1000}",
                "a?" * 20_000, "(a|b)" * 20_000, "[a-z&&[^b]]" * 5_000, "(?x)" + "# x\n" * 50_000, "." * 100_000]
    for n, pattern in enumerate(patterns):
        host = wire.virtual_host("h", ["*"], [wire.pattern_route(pattern, "web")])
        session.responses(wire.LISTENER, wire.listener("svc", wire.route_configuration("r", [host])), version=str(n + 2))
    session.add(f"@{len(session.lines)} c 1 start 0 0 /{'a' * 100_000}", "c 1 commit 0")
    return session.text()


def deep_messages():
    session = begun()
    resource = wire.any_of(wire.LISTENER, routes_to("web"))
    wrapper = wire.TYPES + "envoy.service.discovery.v3.Resource"
    for _ in range(2_000):
        resource = wire.any_of(wrapper, wire.delimited(2, resource))
    session.data(wire.frame(wire.delimited(2, resource) + wire.text(4, wire.LISTENER)))
    groups, nested = b"\x0b" * 1_000_000, b""
    for _ in range(20_000):
        nested = wire.delimited(2, nested)
    for value in (groups, nested):
        session.responses(wire.LISTENER, value)
    session.data(wire.frame(groups))
    return session.text()


@dataclasses.dataclass
class Case:
    """A large session: what it has, the most memory in MiB that playing it may take, whether its report is one text, and
    the stack in KiB in which it is played."""

    make: object
    about: str
    bound: int
    is_one_text: bool = True
    stack: int = 256

    @property
    def name(self):
        return self.make.__name__

    def text(self):
        """The session as it is played."""
        return gated(self.make()) if self.is_one_text else self.make()


CASES = [
    Case(lines, "200,000 lines: 65,536 calls by sixteen callers, each started, picked and committed", 512, False),
    Case(calls_held, "65,536 calls by sixteen callers that are all held at once", 512, False),
    Case(fields, "65,536 calls with 64 header fields each", 1_024, False),
    Case(driver_lines, "20,000 driver's lines, most of which change the configuration", 512),
    Case(entries, "1,019,949 responses of no byte, in 19,999 lines", 1_024),
    Case(boot_of_64_mib, "67,108,864 bytes, most of them in the bootstrap", 512),
    Case(paths_of_64_mib, "67,108,864 bytes, most of them in the paths of 64 calls", 512),
    Case(message_of_4_mib, "one response of 4,194,304 bytes, with 138,000 endpoints", 256),
    Case(localities_100000, "one response with 100,000 localities, and 1,000 picks among them", 256),
    Case(routes_of_4_mib, "a host of 105,000 routes to 1,024 clusters", 256),
    Case(hosts_1024, "1,024 hosts that name 1,024 clusters, of which each has a tree; 120 reports of endpoints", 256),
    Case(updates, "1,024 clusters with 200 responses of 120 clusters each, 1,000 calls and 10,000 picks", 512, False),
    Case(chains, "1,024 aggregates, with chains of 16 clusters below each by 16,384 ways", 256),
    Case(too_deep_loops, "1,024 aggregates that name one another in loops of each length", 256),
    Case(many_resources, "40,000 clusters in one response, and 30,000 in one that are refused", 256),
    Case(names_of_1_mib, "a cluster's name of 1 MiB, and a refused one", 256),
    Case(many_streams, "65,534 authorities, and 9,991 streams", 256),
    Case(deep_boot, "a bootstrap of 20,000,000 brackets", 256),
    Case(deep_boot_in_a_member, "a bootstrap with 120 brackets in one another", 64),
    Case(deep_patterns, "patterns with 100,000 groups, classes or alternatives, and other ones that are hard to build", 512, True,
         512),  # Patterns are read in as many calls as groups stand in one another: 250, and what has more is refused.
    Case(deep_messages, "wrappers, groups and messages in one another", 256),
]


def main():
    cases = {case.name: case for case in CASES}
    if len(sys.argv) == 2 and sys.argv[1] in cases:
        sys.stdout.buffer.write(cases[sys.argv[1]].text())
        return 0
    print(__doc__)
    for case in CASES:
        print(f"{case.name:22} {case.about}")
    return len(sys.argv) != 1


if __name__ == "__main__":
    sys.exit(main())
