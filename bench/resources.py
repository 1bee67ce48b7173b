"""bench/resources.py [--runs N] [--copies N] [--most RATIO]: how long reading and checking a resource takes, and the same for half of it.

A listener with one virtual host of 2,000 routes to 1,024 clusters, against one of 1,000 routes to 512; and an assignment
of 20,000 endpoints, against one of 10,000. Each is checked in so many copies. The time is the least of N runs of the
program probe_resource, less that of a run on nothing. With --most the status is 1 where a ratio is above it.
"""

import argparse
import sys

import timing

sys.path.insert(0, str(timing.HOME / "tools"))
import wire  # noqa: E402

def listener(routes, clusters):
    """A Listener whose routes are tests of whole paths."""
    rules = [("path", f"/shop.Cart/Item{place}", f"cluster{place % clusters}") for place in range(routes)]
    return "listener", wire.LISTENER, wire.listener_of("svc", "r", rules)


def host(each):
    """The host of an endpoint."""
    return f"10.{each // 65536}.{each // 256 % 256}.{each % 256}"


def assignment(endpoints):
    """A ClusterLoadAssignment of localities of a hundred endpoints each."""
    places = range(0, endpoints, 100)
    return "endpoint", wire.ENDPOINT, wire.assignment(
        "web", [wire.locality(f"zone{place}", map(host, range(place, place + 100))) for place in places])


def lines(resource, copies):
    kind, url, value = resource
    return f"{kind} {url.encode().hex()} {value.hex()}\n" * copies


def seconds(program, text, runs):
    """The least time of so many runs, which accept each copy."""
    return timing.seconds([program, "judge"], text, runs, lambda shown: "false" not in shown)


def main():
    parser = argparse.ArgumentParser(description="The time of reading and checking a resource, and of one twice as large.")
    parser.add_argument("--runs", type=int, default=5, help="how often each is run")
    parser.add_argument("--copies", type=int, default=20, help="how many copies are checked in a run")
    timing.add_most(parser)
    given = parser.parse_args()
    program, is_above = timing.built("probe_resource"), False
    nothing = seconds(program, "", given.runs)
    for name, small, large in (
        ("routes of a listener", (1_000, listener(1_000, 512)), (2_000, listener(2_000, 1_024))),
        ("endpoints of an assignment", (10_000, assignment(10_000)), (20_000, assignment(20_000))),
    ):
        took = [seconds(program, lines(resource, given.copies), given.runs) - nothing for _, resource in (small, large)]
        per = [1000 * t / given.copies for t in took]
        print(f"{name}: {small[0]:,} in {per[0]:.2f} ms, {large[0]:,} in {per[1]:.2f} ms")
        is_above |= timing.ratio_of(took, given)
    return is_above


if __name__ == "__main__":
    sys.exit(main())
