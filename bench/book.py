"""bench/book.py [--runs N] [--only STEP..] [--system] [--most RATIO]: what single steps of a channel cost.

A step costs what a session with twice as many of its lines takes longer, over the lines that it has more: so neither the
start of the program nor the first responses are counted. What is read is counted; the report isn't, since the output takes
no byte, and the whole session is played before its report is begun. Told are the user time of a step and by how much it raises
the peak memory, of the least of N runs each; in each run all steps are played by turns. Below stand how much longer an Endpoint
response of all clusters takes with 64 times the clusters, and the memory that a snapshot takes for each cluster that stayed.
XDS_YARDSTICK names another program with the same commands: then both play by turns, and the ratio of their times is told too.
With --system the time that the system works for a program is counted, too: the two together are told exactly, where user time
alone may be told by ticks. With --most the status is 1 where one of these ratios is above it.
"""

import argparse
import functools
import pathlib
import sys
import tempfile

import timing

sys.path.insert(0, str(timing.HOME / "tools"))
import large_sessions as large  # noqa: E402

FEW, MANY = 16, large.MANY
# The steps, with their words, their sessions, and how many the shorter session has.
STEPS = {
    "report": ("1,024 clusters: a report on an endpoint, with a snapshot", large.endpoint_lines, 4_000),
    "report_of_few": ("16 clusters: the same", functools.partial(large.endpoint_lines, many=FEW), 9_900),
    "pick": ("1,024 clusters: a pick", large.picks_of_a_call, 90_000),
    "call": ("two routes: a start and its commit", large.calls, 30_000),
    "response": ("1,024 clusters: an Endpoint response of 120 of them", large.endpoint_responses, 100),
    "first_response": ("1,024 clusters: the first endpoints of one of them", large.first_endpoints, 500),
    "response_to_all": ("1,024 clusters: one of all of them", functools.partial(large.endpoint_responses, changes=MANY), 20),
    "response_to_few": ("16 clusters: one of all of them", functools.partial(large.endpoint_responses, changes=FEW, many=FEW), 1_280),
}


class Step:
    """A step: its two sessions, and what each program needs for them."""

    def __init__(self, name, programs, room, with_system):
        self.what, session, self.count = STEPS[name]
        self.with_system = with_system
        room.mkdir()
        self.inputs = [room / "once", room / "twice"]
        self.best = {program: [(float("inf"), float("inf"))] * 2 for program in programs}
        for times, file in enumerate(self.inputs, 1):
            file.write_text(large.text(session(times * self.count)))

    def measure(self):
        """Runs each program on both sessions, and keeps the least time and memory."""
        for program, best in self.best.items():
            self.best[program] = [tuple(map(min, least, self.run(program, file)))
                                  for least, file in zip(best, self.inputs)]

    def run(self, program, file):
        """The time and the memory of one run on a session."""
        return timing.alone(program, ["run"], file, is_written=False, with_system=self.with_system)

    def cost(self, program):
        """The time in seconds and the memory in bytes of one step."""
        once, twice = self.best[program]
        return [(large - small) / self.count for small, large in zip(once, twice)]


def measured(names, programs, given):
    """What each step costs each program. All steps are played in each run, so that a moment in which the machine is slow
    falls on all of them."""
    with tempfile.TemporaryDirectory() as room:
        steps = {name: Step(name, programs, pathlib.Path(room) / name, given.system) for name in names}
        for _ in range(given.runs):
            for step in steps.values():
                step.measure()
    return {name: [step.cost(program) for program in programs] for name, step in steps.items()}


def row(name, costs):
    """A row of the table."""
    cells = [STEPS[name][0]] + [cell for time, memory in costs for cell in (f"{time * 1e6:,.2f} us", f"{memory:,.0f} B")]
    if len(costs) > 1:
        cells.append(f"{ratio(costs):.2f}")
    return "| " + " | ".join(cells) + " |"


def ratio(costs):
    """How much more time the first of two programs needs."""
    return costs[0][0] / max(costs[1][0], 1e-9)


def head(count):
    """The head of the table."""
    cells = ["Step", "Time", "Memory"] + ["The other's time", "Its memory", "Ratio"] * (count - 1)
    return "| " + " | ".join(cells) + " |\n" + "|---" * len(cells) + "|"


def growth(costs, place):
    """How costs of the program at a place grow with the clusters, as sentences."""
    if costs.keys() >= {"response_to_all", "response_to_few"}:
        all_of, few_of = (costs[name][place][0] for name in ("response_to_all", "response_to_few"))
        yield f"{MANY // FEW} times the clusters: a response to all of them takes {all_of / max(few_of, 1e-9):.1f} times the time"
    if costs.keys() >= {"report", "report_of_few"}:
        many, few = (costs[name][place][1] for name in ("report", "report_of_few"))
        yield f"a snapshot takes {(many - few) / (MANY - FEW):.1f} bytes for each cluster that stayed"


def words():
    parser = argparse.ArgumentParser(description="What single steps of a channel cost.")
    parser.add_argument("--runs", type=int, default=5, help="how often each session is played")
    parser.add_argument("--only", nargs="+", choices=STEPS, default=list(STEPS), help="the steps")
    parser.add_argument("--system", action="store_true", help="the time that the system works for a program counts, too")
    timing.add_most(parser)
    return parser.parse_args()


def main():
    given, programs = words(), timing.programs()
    costs = measured(given.only, programs, given)
    print(head(len(programs)))
    for name in given.only:
        print(row(name, costs[name]))
    for place, which in enumerate(["xds_replay", "the other program"][:len(programs)]):
        for sentence in growth(costs, place):
            print(f"{which}: {sentence}")
    return given.most is not None and len(programs) > 1 and any(ratio(each) > given.most for each in costs.values())


if __name__ == "__main__":
    sys.exit(main())
