"""bench/trees.py [--runs N] [--updates N] [--most RATIO]: what an update of trees costs with 512 and with 1,024 clusters, and their ratio.

Each update is a line that reports the state of one endpoint, after which a snapshot of all clusters is published and reported.
The time is the least of N runs of the whole program, less that of the same session without these lines. With --most the status
is 1 where the ratio is above it.
"""

import sys

import timing

sys.path.insert(0, str(timing.HOME / "tools"))
import large_sessions  # noqa: E402


def main():
    program = timing.built()

    def played(clusters, updates, runs):
        return timing.seconds([program, "run"], large_sessions.text(large_sessions.endpoint_lines(updates, clusters)), runs)

    return timing.updates_of("What an update of trees costs with 512 and with 1,024 clusters.", played, (512, 1_024), 5, 5_000)


if __name__ == "__main__":
    sys.exit(main())
