"""bench/sessions.py [--runs N] [--most RATIO]: the time to read sessions of 100,000 and 200,000 lines, and their ratio.

Of twenty lines nineteen are a caller's, most with gates, some with header fields, and one is the driver's. The time is the
least of N runs of probe_session, which reads its whole input before it writes, less that of a run over four
lines. With --most the status is 1 where the ratio is above it.
"""

import argparse
import sys

import timing

HEAD = ["xds-session 1", 'boot {"xds_servers":[{"server_uri":"ms:1"}],"node":{"id":"n"}}', "target xds:///svc", "callers 4"]


def line(n):
    """Line n, from 5."""
    call = n // 10 * 3
    turn = n % 10
    if n % 20 == 0 or n < 10:
        return f"d time {n}"
    if 0 < turn < 8:
        return f"@{n - turn // 2 - 1} c {call % 4 + 1} pick {call} {n * 11_400_714_819_323_198_485 % 2 ** 64}"
    if turn == 8:
        return f"c {(call + 1) % 4 + 1} start {call + 1} {n} /shop.Cart/Add x-user=a%20b x-shop=north"
    return f"c {(call + 2) % 4 + 1} commit {call + 2}"


def session(lines):
    """A session with so many lines."""
    return "".join(text + "\n" for text in HEAD + [line(n) for n in range(5, lines + 1)])


def seconds(program, text, runs):
    """The least time of so many runs, which read the session whole."""
    return timing.seconds([program], text, runs, lambda shown: shown.startswith("lines "))


def main():
    parser = argparse.ArgumentParser(description="The time to read sessions of 100,000 and 200,000 lines.")
    parser.add_argument("--runs", type=int, default=5, help="how often each session is read")
    timing.add_most(parser)
    given = parser.parse_args()
    program, times = timing.built("probe_session"), []
    least = seconds(program, session(4), given.runs)
    for lines in (100_000, 200_000):
        text = session(lines)
        times.append(max(seconds(program, text, given.runs) - least, 1e-6))
        print(f"{lines:,} lines: {times[-1] * 1000:.1f} ms, {len(text) / times[-1] / 1e6:.0f} MB/s")
    return timing.ratio_of(times, given)


if __name__ == "__main__":
    sys.exit(main())
