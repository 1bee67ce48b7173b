"""What the benchmarks share: programs of the repository, and how long a run of one takes."""

import argparse
import os
import pathlib
import subprocess
import sys
import tempfile
import time

HOME = pathlib.Path(__file__).resolve().parent.parent
ALONE, FULL = HOME / "bench/run_alone.py", "/dev/full"


def built(name="xds_replay"):
    """The path of a program of the repository, which is built first where it has to be."""
    ran = subprocess.run(["bash", HOME / "tools/built.sh", name], stdout=subprocess.PIPE, check=True, text=True)
    return ran.stdout.strip()


def programs():
    """The path of xds_replay, and behind it that of the program that XDS_YARDSTICK names, if it names one."""
    other = os.environ.get("XDS_YARDSTICK")
    return [built()] + ([str(pathlib.Path(other).resolve())] if other else [])


def alone(program, words, given, is_written=True, with_system=False):
    """The user time in seconds, with the system's where it is asked for, and the peak memory in bytes of one run of a program over
    a file, by itself. Where nothing is to be written, it meets an output that takes no byte, and ends with the status of a write
    fault."""
    output, wanted, said = (os.devnull, "0", None) if is_written else (FULL, "5", subprocess.DEVNULL)
    command = [sys.executable, "-I", "-S", ALONE, given, output, program, *words]
    ran = subprocess.run(command, stdout=subprocess.PIPE, stderr=said, check=True, text=True)
    took, system, memory, status = ran.stdout.split()
    if status != wanted:
        raise SystemExit(f"{program}: status {status}")
    return float(took) + (float(system) if with_system else 0), float(memory)


def seconds(command, text, runs, is_right=None):
    """The least time of so many runs of a command over this input; where a test is given, each output passes it."""
    best, out = None, subprocess.PIPE if is_right else subprocess.DEVNULL
    with tempfile.NamedTemporaryFile("w") as file:
        file.write(text)
        file.flush()
        for _ in range(runs):
            with open(file.name, "rb") as given:
                start = time.perf_counter()
                ran = subprocess.run(command, stdin=given, stdout=out, check=True, text=True)
                took = time.perf_counter() - start
            if is_right and not is_right(ran.stdout):
                raise SystemExit(f"{command[0]}: {ran.stdout[:200].strip()}")
            best = took if best is None else min(best, took)
    return best


def add_most(parser):
    parser.add_argument("--most", type=float, help="the greatest ratio that is allowed")


def ratio_of(times, given):
    """Prints how much longer the second of two times is, and tells whether that is more than is allowed."""
    small, large = times
    ratio = large / small
    print(f"ratio: {ratio:.2f}")
    return given.most is not None and ratio > given.most


def updates_of(what, played, sizes, runs, updates, most=None):
    """Prints what an update costs with two numbers of clusters, and tells whether the ratio is more than is allowed.
    `played` gives the least time of several runs with so many clusters and updates; that of a run without updates is
    taken off."""
    parser = argparse.ArgumentParser(description=what)
    parser.add_argument("--runs", type=int, default=runs, help="how often each run is made")
    parser.add_argument("--updates", type=int, default=updates, help="how many updates are played")
    add_most(parser)
    parser.set_defaults(most=most)
    given, costs = parser.parse_args(), []
    for clusters in sizes:
        took = played(clusters, given.updates, given.runs) - played(clusters, 0, given.runs)
        costs.append(took / given.updates)
        print(f"{clusters:,} clusters: {costs[-1] * 1e6:.1f} microseconds an update")
    return ratio_of(costs, given)
