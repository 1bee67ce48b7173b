"""tools/large_sessions.py NAME SIZE: writes a large session of this kind and size to standard output.

The kinds are the functions of KINDS, each of which makes the lines of a session. In most of them the client gets one
listener with its routes, the clusters that they lead to, and one endpoint for each of these, before the lines that count.
The lines have gates by which they are played in their order (tests/gating.py), so that no call starts before that.
"""

import itertools
import pathlib
import sys

HERE = pathlib.Path(__file__).resolve().parent
sys.path[:0] = [str(HERE), str(HERE.parent / "tests")]
import wire  # noqa: E402
from gating import gated  # noqa: E402

HEAD = ["xds-session 1", 'boot {"xds_servers":[{"server_uri":"ms:1"}],"node":{"id":"n"}}', "target xds:///svc", "callers 1"]
MANY = 1_024


def data(version, url, resources):
    """A data line with a response of these resources."""
    return "d data - " + wire.frame(wire.response(f"{version}", f"n{version}", url, resources)).hex()


def host(place):
    """The host of the endpoint of the cluster at a place."""
    return f"10.0.{place // 250}.{place % 250 + 1}"


def assigned(name, place, weight=1):
    """What says that the cluster of this name has the endpoint of a place."""
    return wire.assignment(name, [wire.locality("z", [host(place)], weight)])


def clusters_of(rules):
    """The clusters that these rules lead to, each once."""
    return list(dict.fromkeys(cluster for _, _, cluster in rules))


def awaited(rules):
    """The first lines, up to where the endpoints of the clusters of these rules are awaited."""
    return HEAD + [
        "d open -",
        data(1, wire.LISTENER, [wire.listener_of("svc", "r", rules)]),
        data(1, wire.CLUSTER, [wire.eds_cluster(name) for name in clusters_of(rules)]),
    ]


def whole(rules):
    """The first lines, up to a whole configuration of these rules."""
    endpoints_of_all = [assigned(name, place) for place, name in enumerate(clusters_of(rules))]
    return awaited(rules) + [data(1, wire.ENDPOINT, endpoints_of_all)]


def many_clusters(many=MANY):
    """The rules of 1,024 clusters, or of so many."""
    return [("prefix", f"/c{place}/", f"c{place}") for place in range(many)]


def ready(count):
    """The lines by which so many endpoints are ready."""
    return [f"d endpoint {host(place)}:80 ready" for place in range(count)]


def calls(count):
    """So many calls that start and commit, by turns to two clusters."""
    yield from whole([("path", "/shop.Cart/Add", "cart"), ("prefix", "/shop.", "shop")])
    for call in range(count):
        yield f"c 1 start {call} {call} {'/shop.Stock/List' if call % 2 else '/shop.Cart/Add'}"
        yield f"c 1 commit {call}"


def picks(count):
    """So many calls with a pick each."""
    yield from whole([("path", "/shop.Cart/Add", "cart"), ("prefix", "/shop.", "shop")]) + ready(2)
    for call in range(count):
        yield f"c 1 start {call} {call} {'/shop.Stock/List' if call % 2 else '/shop.Cart/Add'}"
        yield f"c 1 pick {call} {call}"
        yield f"c 1 commit {call}"


def routed(routes, count):
    """So many calls, which only the last of so many routes fits."""
    rules = [("path", f"/shop.Cart/Item{place}", "cart") for place in range(routes - 1)]
    yield from whole(rules + [("prefix", "/shop.", "shop")])
    for call in range(count):
        yield f"c 1 start {call} {call} /shop.Cart/Add"
        yield f"c 1 commit {call}"


def calls_by_routes(count):
    """So many calls, which only the last of 1,024 routes fits."""
    return routed(MANY, count)


def endpoint_lines(count, many=MANY):
    """So many reports on endpoints of 1,024 clusters, or of so many, each of which changes its cluster."""
    yield from whole(many_clusters(many))
    for line in range(count):
        yield f"d endpoint {host(line % many)}:80 {'failing' if line // many % 2 else 'ready'}"


def changed(turn, changes=120, many=MANY):
    """The Endpoint response in which 120 of the 1,024 clusters change, or so many of so many."""
    places = sorted({(turn * changes + each) % many for each in range(changes)})
    return data(turn + 2, wire.ENDPOINT, [assigned(f"c{place}", place, turn + 2) for place in places])


def endpoint_responses(count, changes=120, many=MANY):
    """So many Endpoint responses, in each of which 120 of 1,024 clusters change, or so many of so many."""
    yield from whole(many_clusters(many)) + ready(many)
    yield from (changed(turn, changes, many) for turn in range(count))


def first_endpoints(count):
    """The endpoints of 1,024 clusters, for which all wait, come in responses of their own, so many of them."""
    yield from awaited(many_clusters())
    yield from (data(place + 1, wire.ENDPOINT, [assigned(f"c{place}", place)]) for place in range(count))


def picks_of_a_call(count):
    """A call with so many picks, among 1,024 clusters."""
    yield from whole(many_clusters()) + ready(MANY)
    yield f"c 1 start 0 0 /c{MANY // 2}/"
    yield from (f"c 1 pick 0 {word}" for word in range(count))


def updates(clusters, count=100):
    """So many clusters, and 100 Endpoint responses of one of them each, or so many responses."""
    yield from whole(many_clusters(clusters)) + ready(clusters)
    for turn in range(count):
        place = turn % clusters
        yield data(turn + 2, wire.ENDPOINT, [assigned(f"c{place}", place, turn + 2)])


def mixed(count):
    """So many Endpoint responses of 120 of 1,024 clusters, and five calls with ten picks each between them."""
    yield from whole(many_clusters()) + ready(MANY)
    for turn in range(count):
        yield changed(turn)
        for call in range(5 * turn, 5 * turn + 5):
            yield f"c 1 start {call} {call} /c{call * 7 % MANY}/"
            yield from (f"c 1 pick {call} {call + each}" for each in range(10))
            yield f"c 1 commit {call}"


def held_calls(count, many=MANY):
    """So many calls, each of which holds one of 1,024 clusters, or of so many, while an endpoint reports."""
    yield from whole(many_clusters(many)) + ready(many)
    for turn in range(count):
        yield f"c 1 start {turn} {turn} /c{turn * 7 % many}/"
        yield f"d endpoint {host(turn % many)}:80 {'ready' if turn // many % 2 else 'failing'}"
        yield f"c 1 commit {turn}"


def filled(line, count):
    """A session of this line alone, so many times."""
    return itertools.chain(HEAD, itertools.repeat(line, count))


def commits(count):
    """So many commits of a call that holds nothing."""
    return filled("c 1 commit 0", count)


def sweeps(count):
    """So many sweeps."""
    return filled("d sweep", count)


def pieces(count):
    """A response of about so many bytes that comes byte by byte, one in each line."""
    rules = [("prefix", "/" + "x" * max(0, count - 400), "shop")]
    spelled = data(1, wire.LISTENER, [wire.listener_of("svc", "r", rules)]).split(" ")[3]
    yield from HEAD + ["d open -"]
    yield from (f"d data - {spelled[at:at + 2]}" for at in range(0, len(spelled), 2))


def resources(count):
    """A response with so many clusters, of which one is watched."""
    rules = [("prefix", "/", "c0")]
    yield from HEAD + ["d open -", data(1, wire.LISTENER, [wire.listener_of("svc", "r", rules)])]
    yield data(1, wire.CLUSTER, [wire.eds_cluster(f"c{place}") for place in range(count)])


def endpoints(count):
    """A cluster with so many endpoints, in localities of a hundred."""
    groups = [[host(place) for place in range(at, min(at + 100, count))] for at in range(0, count, 100)]
    yield from whole([("prefix", "/", "web")])
    yield data(2, wire.ENDPOINT, [wire.assignment("web", [wire.locality(f"z{at}", hosts) for at, hosts in enumerate(groups)])])


KINDS = {one.__name__: one for one in (
    calls, picks, picks_of_a_call, calls_by_routes, endpoint_lines, endpoint_responses, first_endpoints, updates, mixed, held_calls,
    commits, sweeps, pieces, resources, endpoints)}


def text(lines):
    """The text of a session's lines, with gates that leave their order."""
    return gated("".join(line + "\n" for line in lines).encode()).decode()


if __name__ == "__main__":
    if len(sys.argv) != 3 or sys.argv[1] not in KINDS:
        sys.exit(f"usage: python3 tools/large_sessions.py {'|'.join(KINDS)} SIZE")
    sys.stdout.write(text(KINDS[sys.argv[1]](int(sys.argv[2]))))
