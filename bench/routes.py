"""bench/routes.py [--runs N] [--calls N]: calls per second that are matched against 10, 100 and 1,000 routes.

A snapshot has so many routes, of which the last alone fits the calls; so each call tries them all.
Each call is started and committed. The time is the least of N runs of the whole program, less that of the
same session without calls.
"""

import argparse
import sys

import timing

sys.path.insert(0, str(timing.HOME / "tools"))
import large_sessions  # noqa: E402


def session(routes, count):
    """A session with so many routes and so many calls."""
    return large_sessions.text(large_sessions.routed(routes, count))


def main():
    parser = argparse.ArgumentParser(description="Calls per second against 10, 100 and 1,000 routes.")
    parser.add_argument("--runs", type=int, default=5, help="how often each session is played")
    parser.add_argument("--calls", type=int, default=20_000, help="how many calls a session makes")
    given = parser.parse_args()
    command = [timing.built(), "run"]
    for routes in (10, 100, 1_000):
        took = timing.seconds(command, session(routes, given.calls), given.runs)
        took -= timing.seconds(command, session(routes, 0), given.runs)
        print(f"{routes:,} routes: {given.calls / took:,.0f} calls per second")


if __name__ == "__main__":
    main()
