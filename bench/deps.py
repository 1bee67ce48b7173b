"""bench/deps.py [--runs N] [--updates N] [--most RATIO]: what an update of a channel's configuration costs with 512 and with 1,024 clusters, and their ratio.

Each update is an Endpoint response of one cluster, after which a snapshot of all clusters is published and reported. The time
is the least of N runs of the whole program, less that of the same session without these responses. The status is 1 where
the ratio is above --most, which is 2.4 where it isn't given.
"""

import sys

import timing

sys.path.insert(0, str(timing.HOME / "tools"))
import large_sessions  # noqa: E402


def main():
    program = timing.built()

    def played(clusters, updates, runs):
        return timing.seconds([program, "run"], large_sessions.text(large_sessions.updates(clusters, updates)), runs)

    return timing.updates_of(
        "What an update of a configuration costs with 512 and with 1,024 clusters.", played, (512, 1_024), 10, 100, 2.4
    )


if __name__ == "__main__":
    sys.exit(main())
