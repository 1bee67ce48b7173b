"""bench/calls.py [--runs N] [--most RATIO]: the time of sessions of 10,000 and 100,000 lines of calls, and their ratio.

A session has at most 65,536 call numbers, and each may start once. So what is counted are the lines of the
caller: half of them start a call, and half commit one. First a snapshot with two routes to two clusters is
published, and then each call is started and committed. The time is the least of N runs of the whole program,
from its start to the end of its report. With --most the status is 1 where the ratio is above it.
"""

import argparse
import sys

import timing

sys.path.insert(0, str(timing.HOME / "tools"))
import large_sessions  # noqa: E402


def main():
    parser = argparse.ArgumentParser(description="The time of 10,000 and of 100,000 lines of calls.")
    parser.add_argument("--runs", type=int, default=5, help="how often each session is played")
    timing.add_most(parser)
    given = parser.parse_args()
    program, times = timing.built(), []
    for lines in (10_000, 100_000):
        times.append(timing.seconds([program, "run"], large_sessions.text(large_sessions.calls(lines // 2)), given.runs))
        print(f"{lines:,} lines of calls: {times[-1] * 1000:.1f} ms")
    return timing.ratio_of(times, given)


if __name__ == "__main__":
    sys.exit(main())
