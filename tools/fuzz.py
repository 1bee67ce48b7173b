#!/usr/bin/env python3
"""Plays damaged inputs, and compares what a program answers with what a reference program answers.

    fuzz.py [--kind KIND] [--program NAME] [--reference FILE] [--seed N] [--count N] [--seconds N] [--batch N]
            [--lines N] [--jobs N] [--keep FILE]

Inputs are made of those in tests/corpus/ and examples/ by tools/mutants.py. Kinds:

    session     a session with one to four kinds of damage; each is a run of both programs
    bootstrap   a session with a damaged bootstrap or target, and calls; each is a run of both programs
    message     a session of 1,000 damaged responses among other lines; a response is an input
    resource    up to 16,000 damaged resources a run, which probe_resource accepts or refuses, and the reference in responses
    push        the same in a session that both programs play, a line each; a resource is an input
    frame       a session of up to 16,000 damaged messages and frames on two streams, which are opened anew again and again;
                each is an input

Two runs agree where both write the same report, or both refuse the session for the same line and cause; with the program
probe_session, which reads sessions and plays none, where both refuse it for them, or none does. The reference plays a session
in the order of its lines, so the program is given it with gates that leave this order (tests/gating.py), unless it is refused.
Without a reference program each run is to write a report that ends, or to refuse the session; each resource is judged. (The
reference is called as xds_replay is; tools/reference.py knows where it is, and where a slow one stands.)

Versions of `regex` don't refuse the same patterns. Inputs in which the two refuse other ones are counted apart (`other
patterns`); of the kinds push and frame their lines are left out, and the session is played again.

Of push and frame, the inputs are the answers that the report has but for those to good responses, which the ends have too:
what is behind a frame or a message that ends a stream isn't counted.

With --jobs N so many processes each take their share. The inputs of a seed are the same at each run. It stops at the first
difference, whose session is made shorter and kept in --keep (fuzz_found.session), with status 1; else after --count inputs
or --seconds, with status 0. The last line says how many inputs there were, and of which kinds their ends.
"""

import argparse
import collections
import dataclasses
import multiprocessing
import os
import pathlib
import random
import re
import sys
import time
import urllib.parse

sys.path.insert(0, str(pathlib.Path(__file__).resolve().parent))
sys.path.insert(0, str(pathlib.Path(__file__).resolve().parent.parent / "tests"))
import mutants  # noqa: E402
import player  # noqa: E402
import quick_damage  # noqa: E402
import reference as adapter  # noqa: E402
from gating import gated  # noqa: E402

BATCH, MOST, TRIES, PATIENCE = 1_000, 16_000, 400, 600
OTHER_PATTERNS = "other patterns"
AUTHORITIES = [b"-", b"+a.example"]
# What stands in a report for an answer to a response, or to a frame that isn't read.
ANSWERS = {"ack": b" response %s ack ", "nack": b" response %s nack ", "ignored": b" response %s ignored ",
           "unreadable": b" response %s unreadable ", "compressed": b" bytes %s compressed ", "toolong": b" bytes %s toolong "}
# What stands before the bytes in the line of a resource.
HEADS = {kind: f"{kind} {url.encode().hex()} " for kind, url in mutants.URLS.items()}
# What answer to a resource comes to what probe_resource says of it.
WORDS = {"true": b"ack", "false": b"nack"}
# In a report the answer to a response; the same with its reason, where its one resource is refused; and a refused pattern.
VERDICT = re.compile(rb" response - (\w+)")
ANSWER = re.compile(rb"^\d+ \d+ d response - (\w+) [^\n]*\n(?:  pat [^\n]*\n)*(?:  req - [^\n]* err=(\S+))?", re.M)
PATTERN = re.compile(rb"^  pat (\S*)", re.M)


class Slow:
    """The slow reference, which plays sessions in this process, or only reads them."""

    def __init__(self, folder, is_reader):
        self.reference, self.is_reader = adapter.Reference(folder), is_reader

    def play(self, text, _):
        """The end and the report of a session."""
        if self.is_reader:
            return self.reference.fault_of(text) or "done", b""
        report = self.reference.report_of(text)
        return (report.rstrip("\n"), b"") if report.startswith("session line ") else ("done", report.encode())


class Comparison:
    """Plays inputs by the program and by the reference, and counts them and their ends."""

    def __init__(self, program, reference):
        self.program, self.reference, self.count, self.ends = program, reference, 0, collections.Counter()

    def given(self, text):
        """The session as the program is given it, and how the reference plays it: its end, or None without one, and its
        report."""
        if self.reference is None:
            return text, None, b""
        wanted, report = self.reference.play(text, PATIENCE)
        return gated(text) if wanted == "done" else text, wanted, report

    def play(self, text):
        """What is wrong with how the program plays a session, or None; how it ended; and both reports."""
        text, wanted, report = self.given(text)
        end, out = self.program.play(text, PATIENCE)
        return self.fault(end, out, wanted, report), end, out, report

    def fault(self, end, out, wanted, report):
        """What is wrong with an end and a report, where these are wanted, or None. Other patterns aren't wrong."""
        if end != "done" and not end.startswith("session line"):
            return f"the program: {end}"
        if end == "done" and not self.program.is_reader and not out.split(b"\n")[-2:-1][0].startswith(b"end "):
            return "the report has no end"
        if wanted is None:
            return None
        if end != wanted:
            return f"the program: {end}; the reference: {wanted}"
        if out == report or self.program.is_reader or patterns_of(out) != patterns_of(report):
            return None
        return first_difference(out, report)

    def others(self, out, report):
        """The patterns that one of the two refuses alone."""
        if self.reference is None or self.program.is_reader or out == report:
            return set()
        return patterns_of(out) ^ patterns_of(report)

    def session(self, made):
        """What is wrong with how the program plays a session, or None; and the session."""
        wrong, end, out, report = self.play(made.text)
        self.count += made.inputs
        self.ends[OTHER_PATTERNS if self.others(out, report) else end.rpartition(" ")[2]] += 1
        return wrong, made.text

    def pushed(self, made):
        """The same of a session of which each line with an input can be left out, as those with other patterns are."""
        wrong, end, out, report = self.play(made.text)
        others = set() if wrong else self.others(out, report)
        if others:
            kept = without_patterns(made.text, others)
            left_out = made.text.count(b"\n") - kept.count(b"\n")
            self.ends[OTHER_PATTERNS] += left_out or made.inputs
            return self.pushed(made._replace(text=kept)) if left_out else (None, made.text)
        answers = {answer: sum(out.count(words % it) for it in AUTHORITIES) for answer, words in ANSWERS.items()}
        self.ends.update(answers if end == "done" else [end])
        self.count += max(0, sum(answers.values()) - made.good_responses)
        return wrong, made.text

    def resources(self, given):
        """What is wrong with how probe_resource judges resources, or None; and the line of the first wrong one."""
        lines = "".join(line_of(kind, value) for kind, value in given).encode()
        ran = player.run([self.program.path, "judge"], lines, PATIENCE)
        got = ran.stdout.decode().split()
        self.count += len(given)
        self.ends.update(accepted=got.count("true"), refused=got.count("false"))
        if ran.returncode or len(got) != len(given) or not WORDS.keys() >= set(got):
            return f"status {ran.returncode}, {len(got)} answers of {len(given)}: {ran.stderr[:200]!r}", lines
        report = self.report_of(given) if self.reference else None
        if report is None or VERDICT.findall(report)[-len(given):] == [WORDS[word] for word in got]:
            return None, b""
        answers = ANSWER.findall(report)[-len(given):]
        if len(answers) != len(given):
            return f"the reference has {len(answers)} answers of {len(given)}", lines
        for resource, word, (answer, reason) in zip(given, got, answers):
            if answer == WORDS[word]:
                continue
            if not (reason.endswith(b"bad-pattern") or word == "false" and "BadPattern" in self.shown(resource)):
                return f"{word}, where the reference answers {answer} {reason}", line_of(*resource).encode()
            self.ends[OTHER_PATTERNS] += 1
        return None, b""

    def report_of(self, given):
        """The reference's report on these resources, each alone in a response, behind that on the responses before them."""
        lines = [b"d data - " + mutants.alone(kind, value).hex().encode() for kind, value in given]
        return self.reference.play(b"\n".join(mutants.asked() + lines), PATIENCE)[1]

    def shown(self, resource):
        """What probe_resource shows of a resource."""
        ran = player.run([self.program.path, "show"], line_of(*resource).encode(), PATIENCE)
        return ran.stdout.decode(errors="replace")


@dataclasses.dataclass
class Kind:
    """A kind of inputs: how a run of them is made, how the run is compared, and of how many it is at most."""

    make: object
    compare: object
    batch: int = 1


KINDS = {"session": Kind(mutants.mutant_session, Comparison.session),
         "bootstrap": Kind(mutants.mutant_bootstrap, Comparison.session),
         "message": Kind(mutants.mutant_messages, Comparison.session, BATCH),
         "resource": Kind(mutants.damaged_resources, Comparison.resources, MOST),
         "push": Kind(mutants.pushed_resources, Comparison.pushed, MOST),
         "frame": Kind(mutants.pushed_frames, Comparison.pushed, MOST)}


def line_of(kind, value):
    """The line of a resource, as probe_resource reads it."""
    return f"{HEADS[kind]}{value.hex()}\n"


def patterns_of(report):
    """The patterns that a report says were refused."""
    found = PATTERN.findall(report) if b"\n  pat " in report else []
    return {urllib.parse.unquote_to_bytes(pattern) for pattern in found}


def without_patterns(text, patterns):
    """A session without the lines of data that have a field with one of these patterns."""
    fields = [(quick_damage.length_of(len(pattern)) + pattern).hex().encode() for pattern in patterns]
    return b"\n".join(line for line in text.split(b"\n") if not any(field in line for field in fields))


def first_difference(got, wanted):
    """The first line in which two reports differ."""
    for one, other in zip(got.split(b"\n") + [b""], wanted.split(b"\n") + [b""]):
        if one != other:
            return f"the program: {one[:300]!r}; the reference: {other[:300]!r}"
    return "one is longer"


def shorter(text, is_wrong):
    """A session that is wrong too, with fewer lines from line 5 on, after so many tries; without gates of its own, where it
    is wrong without them."""
    bare = re.sub(rb"(?m)^@\d+ ", b"", text)
    lines, tries = (bare if is_wrong(bare) else text).split(b"\n"), 0
    size = max(64, len(lines) // 2)
    while size and tries < TRIES:
        at = 4
        while at < len(lines) and tries < TRIES:
            fewer = lines[:at] + lines[at + size:]
            tries += 1
            if is_wrong(b"\n".join(fewer)):
                lines = fewer
            else:
                at += size
        size //= 2
    return b"\n".join(lines)


def words():
    """The words of the command line."""
    about, _, more = __doc__.partition("\n\n")
    parser = argparse.ArgumentParser(prog="fuzz.py", description=about, epilog=more,
                                     formatter_class=argparse.RawDescriptionHelpFormatter)
    parser.add_argument("--kind", default="session", choices=list(KINDS))
    parser.add_argument("--program", help="a program of this repository; xds_replay, or probe_resource, where none is named")
    parser.add_argument("--reference", default=adapter.program()[0], metavar="FILE",
                        help="the reference program, or the folder of the slow one")
    parser.add_argument("--seed", type=int, default=1, metavar="N")
    parser.add_argument("--count", type=int, default=10 ** 12, metavar="N", help="how many inputs")
    parser.add_argument("--seconds", type=float, default=60, metavar="N", help="for how long")
    parser.add_argument("--batch", type=int, metavar="N", help="how many messages, or resources, a run has")
    parser.add_argument("--lines", type=int, default=200_000, metavar="N",
                        help="the most lines of the sessions that are damaged")
    parser.add_argument("--jobs", type=int, default=1, metavar="N", help="how many processes make inputs and play them")
    parser.add_argument("--keep", default="fuzz_found.session", metavar="FILE", help="where a wrong input is kept")
    return parser.parse_args()


class Search:
    """Plays inputs in processes of which each takes its share, until one is wrong or there were enough."""

    def __init__(self, given, comparison):
        self.given, self.comparison, self.inputs = given, comparison, mutants.Inputs(given.lines)
        self.until, self.is_over = time.monotonic() + given.seconds, multiprocessing.Event()

    def share(self, first):
        """The share of a process: what is wrong, its input, and how many there were of which ends."""
        given, comparison, kind = self.given, self.comparison, KINDS[self.given.kind]
        batch = given.batch or kind.batch
        wrong, text, place = None, b"", first
        while comparison.count < given.count / given.jobs and time.monotonic() < self.until and not self.is_over.is_set():
            made = kind.make(random.Random(f"{given.kind} {given.seed} {place}"), self.inputs, batch)
            wrong, text = kind.compare(comparison, made)
            place += given.jobs
            if wrong:
                self.is_over.set()
        return wrong, text, comparison.count, comparison.ends

    def shares(self):
        """What all processes give."""
        if self.given.jobs == 1:
            return [self.share(0)]
        Search.current = self  # (the processes begin as copies of this one, and find it here)
        with multiprocessing.get_context("fork").Pool(self.given.jobs) as pool:
            return pool.map(share_of_current, range(self.given.jobs), chunksize=1)


def share_of_current(first):
    return Search.current.share(first)


def reference_at(path, is_reader):
    """The reference program, or the slow one, that stands there; None where none does."""
    if os.path.isdir(path):
        return Slow(path, is_reader)
    return player.Player(str(path)) if os.path.exists(path) else None


def keep(given, comparison, wrong, text):
    """Tells what is wrong, and keeps the input: resources as they are, a session with fewer lines and with its gates."""
    if given.kind != "resource":
        text = comparison.given(shorter(text, lambda it: comparison.play(it)[0]))[0]
    pathlib.Path(given.keep).write_bytes(text)
    print(f"{wrong}\nkept: {given.keep}")


def main():
    given = words()
    program = player.built(given.program or ("probe_resource" if given.kind == "resource" else "xds_replay"))
    reference = reference_at(given.reference, program.is_reader)
    comparison, start = Comparison(program, reference), time.monotonic()
    found, count, ends = None, 0, collections.Counter()
    for wrong, text, its_count, its_ends in Search(given, comparison).shares():
        count, ends = count + its_count, ends + its_ends
        found = found or (wrong and (wrong, text))
    if found:
        keep(given, comparison, *found)
    shown = ", ".join(f"{end} {times:,}" for end, times in ends.most_common())
    compared = "compared with the reference" if reference else "without a reference"
    print(f"{given.kind}, seed {given.seed}: {count:,} inputs in {time.monotonic() - start:.0f} s, {compared}; {shown}")
    return bool(found)


if __name__ == "__main__":
    sys.exit(main())
