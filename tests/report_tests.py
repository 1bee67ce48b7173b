"""Tests of tools/report.py: every example and the small reports of tests/reports/ are read and written back, faults are
told by their line, and the text and the page say what the report says.

With REPORT_BROWSER set to the command of a Chromium, the page is opened in it too.
"""

from __future__ import annotations

import io
import json
import os
import pathlib
import random
import re
import subprocess
import sys
import tempfile
import unittest

ROOT = pathlib.Path(__file__).resolve().parent.parent
sys.path.insert(0, str(ROOT / "tools"))

import report_html  # noqa: E402
import report_model as model  # noqa: E402
import report_text  # noqa: E402
from report_filter import Selection  # noqa: E402
from report_reader import read_report  # noqa: E402
from report_session import draw, read_session, shorten  # noqa: E402
from report_story import Story, refusals  # noqa: E402
from report_words import REASON_WORDS  # noqa: E402

EXAMPLES = sorted(path for path in (ROOT / "examples").glob("*.expected")
                  if path.read_bytes().startswith(b"xds-report"))
SMALL = sorted((ROOT / "tests" / "reports").glob("*.report"))
TOOL = ROOT / "tools" / "report.py"
EXAMPLE = ROOT / "examples" / "priority_failover.expected"


def story_of(path: pathlib.Path) -> Story:
    return Story(read_report(path.read_bytes()))


def small(name: str) -> Story:
    return story_of(ROOT / "tests" / "reports" / f"{name}.report")


def session_of(path: pathlib.Path):
    return read_session(path.with_suffix(".session").read_bytes()) if path.with_suffix(".session").exists() else None


def text_of(story: Story, session=None, wanted=Selection()) -> str:
    """The text of a report with its wrapped sentences joined again."""
    return re.sub(r"\n +", " ", "\n".join(report_text.text_page(story, session, wanted)))


def page_of(story: Story, session=None) -> str:
    return "\n".join(report_html.page(story, session, Selection(), "a <b> report"))


def page_data(page: str) -> dict:
    return json.loads(re.search(r'<script id="data" type="application/json">(.*?)</script>', page, re.S)[1])


def run(*words: str, data: bytes = b"") -> subprocess.CompletedProcess:
    return subprocess.run([sys.executable, TOOL, *map(str, words)], input=data, capture_output=True, check=False)


class EachReport(unittest.TestCase):
    """One test for each report is added below."""

    def check_report(self, path: pathlib.Path) -> None:
        data = path.read_bytes()
        report = read_report(data)
        self.assertEqual("".join(line + "\n" for line in report.lines()).encode(), data)
        story, session = Story(report), session_of(path)
        text = text_of(story, session)
        for call in story.calls:
            self.assertIn(f"Why call {call} went where it went:", text)
        self.check_page(story, page_of(story, session), data.decode().splitlines())

    def check_page(self, story: Story, page: str, lines: list[str]) -> None:
        """The page has each line of the report, and names nothing outside of itself."""
        shown = page_data(page)
        rows = [row for entry in shown["entries"] for row in entry[6]]
        self.assertEqual([row[0] for row in rows], [line for line in lines[1:-1] if not line.startswith("  snap ")])
        self.assertTrue(all(row[1] for row in rows))
        self.assertEqual(len(shown["snapshots"]), story.report.snapshots)
        self.assertEqual(snapshot_lines(shown), [line for line in lines if line.startswith("  snap ")])
        self.assertIsNone(re.search(r"""(src|href|action)=|url\(|@import""", page.split('id="data"')[0]))


def snapshot_lines(shown: dict) -> list[str]:
    """The snapshots' lines, as the page's script puts them together from what changed in each."""
    trees: dict[int, int] = {}
    lines = []
    for number, (_, front, _, changed) in enumerate(shown["snapshots"], 1):
        trees = {**trees, **dict(changed)}
        trees = {cluster: tree for cluster, tree in trees.items() if tree >= 0}
        told = "".join(f" {shown['clusters'][cluster][0]}={shown['trees'][tree][0]}"
                       for cluster, tree in sorted(trees.items()))
        lines.append(f"  snap {number} front={shown['fronts'][front][0]}{told}")
    return lines


for place, path in enumerate(EXAMPLES + SMALL):
    setattr(EachReport, f"test_{place}_{path.stem}", lambda self, path=path: self.check_report(path))


class Values(unittest.TestCase):
    def test_each_reason_has_words(self):
        self.assertEqual(set(REASON_WORDS), set(model.REASONS))

    def test_small_reports_have_every_form(self):
        text = "\n".join(path.read_text() for path in SMALL)
        words = ["compressed", "toolong 4194305", "ended", "closed", "ignored", "unreadable", "ack", "nack", "sweep",
                 "time", "lost", "nosnapshot", "noaction", "noroute", "nofront", "queue", "fail", "drop", "notheld", "released",
                 "|", "+~", ":none", "=!", "front=!", "  pat ", "err=", " node", "wait ", "whole"]
        for word in words:
            self.assertIn(word, text)

    def test_escapes(self):
        pairs = [("a b", "a%20b"), ("é", "%C3%A9"), ("%,=|", "%25%2C%3D%7C"), ("", ""), ("*!/:+~", "*!/:+~")]
        for text, written in pairs:
            self.assertEqual(model.escape(text), written)
            self.assertEqual(model.unescape(written), text)
        for wrong in ("%2f", "%41", "a b", "%", "a=b"):
            self.assertIsNone(model.unescape(wrong))

    def test_stars_in_names(self):
        trees = small("trees").snapshot(5).trees
        self.assertEqual([child.leaf for child in trees["**"].children], ["**"])
        self.assertEqual([(child.leaf, child.chosen) for child in trees["g"].waiting], [("*b", False), ("*b", True)])
        self.assertEqual(small("trees").snapshot(1).trees["!no"].chosen().priority, 1)

    def test_refusals(self):
        self.assertEqual(refusals("a: b: no-name; resource 1: unreadable"),
                         [("a: b", "no-name"), ("resource 1", "unreadable")])
        self.assertEqual(refusals("x; y: depth"), [("x; y", "depth")])
        self.assertIsNone(refusals("a: nothing"))

    def test_draws(self):
        self.assertEqual([draw(0, 0), draw(0, 1), draw(0, 3), draw(2**64 - 1, 0)],
                         [0, 2_654_435_769, 3_668_340_012, 4_294_967_295])

    def test_random_reports(self):
        for seed in range(200):
            lines = random_report(random.Random(seed))
            self.assertEqual(read_report("".join(line + "\n" for line in lines).encode()).lines(), lines)


NAMES = ["web", "a b", "%", "*", "*x", "!x", "é", "x/1", "a:ready", "+", "~", "a=b,c|d", "xdstp://a/T/i?k=v"]


def random_report(chance: random.Random) -> list[str]:
    """A report with trees over odd names; what it says needn't make sense."""
    entries = []
    for number in range(1, chance.randrange(2, 8)):
        entry = model.Entry(number, number + 4, 0, model.Time(number), model.Word("ok"), random_key(chance), 0)
        names = tuple(chance.sample(NAMES, chance.randrange(3)))
        entry.requests = [model.Request(chance.choice([None, "", "a b"]), "cluster", chance.choice(NAMES), "", names,
                                        chance.choice([None, "a: b; c"]), chance.random() < 0.5)]
        clusters = sorted(chance.sample(NAMES, chance.randrange(4)), key=str.encode)
        entry.snapshot = model.Snapshot(number, random_front(chance), {name: random_tree(chance) for name in clusters})
        entries.append(entry)
    return model.Report(entries, len(entries)).lines()


def random_key(chance: random.Random) -> model.Key | None:
    return chance.choice([None, model.Key(chance.choice(model.KINDS), chance.choice(NAMES))])


def random_front(chance: random.Random) -> model.Front | model.Reason:
    return chance.choice([model.Reason("absent"), model.Front(chance.choice(NAMES), chance.choice(["", "r"]), 3)])


def random_tree(chance: random.Random) -> model.Tree | model.Reason:
    if chance.random() < 0.2:
        return model.Reason(chance.choice(model.REASONS))
    return model.Tree(random_children(chance), random_children(chance) if chance.random() < 0.3 else None)


def random_children(chance: random.Random) -> tuple[model.Child, ...]:
    count = chance.randrange(1, 4)
    chosen = chance.randrange(count)
    return tuple(random_child(chance, place == chosen) for place in range(count))


def random_child(chance: random.Random, chosen: bool) -> model.Child:
    state = chance.choice([None, *model.STATES])
    return model.Child(chance.choice(NAMES), chance.randrange(3), state, chosen, bool(state) and chance.random() < 0.5,
                       bool(state) and chance.random() < 0.5)


HEAD = "xds-report 1\n1 5 d open - ok wait listener:svc\n"
FAULTS = [
    ("", 0, "empty"),
    ("xds-report 2\n", 1, "begins with the line"),
    ("load 1\nentries 36\n", 1, "totals"),
    ("xds-report 1\n1 0 d sweep ok whole\nend 1 0", 3, "cut off"),
    ("xds-report 1\n1 0 d sweep ok whole\n", 2, "without its `end` line"),
    ("xds-report 1\n2 0 d sweep ok whole\n", 2, "1 comes next"),
    ("xds-report 1\n01 0 d sweep ok whole\n", 2, "isn't a number"),
    ("xds-report 1\r\n", 1, "a carriage return"),
    ("xds-report 1\n" + "9" * 5000 + " 0 d sweep ok whole\n", 2, "isn't a number"),
    ("xds-report 1\n1 0 x sweep ok whole\n", 2, "isn't an actor"),
    ("xds-report 1\n1 0 c" + "1" * 5000 + " pin 0 nosnapshot\n", 2, "isn't an actor"),
    ("xds-report 1\n1 0 c17 pin 0 nosnapshot\n", 2, "isn't an actor"),
    ("xds-report 1\n1 0 d pin 0 nosnapshot\n", 2, "an event of the driver"),
    ("xds-report 1\n1 0 c1 sweep ok whole\n", 2, "a caller's event"),
    ("xds-report 1\n1 5 d open x ok whole\n", 2, "isn't an authority"),
    ("xds-report 1\n1 5 d open - closed whole\n", 2, "isn't a reply"),
    ("xds-report 1\n1 5 d response - ack web whole\n", 2, "a kind of resource"),
    ("xds-report 1\n1 5 d endpoint web:80 ready ok whole\n", 2, "isn't an address"),
    ("xds-report 1\n1 5 d endpoint 10.0.0.1:80 idle ok whole\n", 2, "a state"),
    ("xds-report 1\n1 5 d sweep ok\n", 2, "ends where `whole` or `wait`"),
    ("xds-report 1\n1 5 d sweep ok wait svc\n", 2, "isn't a resource"),
    ("xds-report 1\n1 5 d sweep ok whole whole\n", 2, "after the end"),
    ("xds-report 1\n1 5 d sweep ok wait listener:a%2fb\n", 2, "isn't escaped"),
    ("xds-report 1\n1 5 c1 pin 0 at 1\n", 2, "isn't published"),
    ("xds-report 1\n1 5 c1 pin 0 to 1\n", 2, "isn't a reply to `pin`"),
    ("xds-report 1\n  pat a\n", 2, "below no entry"),
    ("xds-report 1\n1 5 d sweep ok whole\n  x\n", 3, "`pat`, `req` or `snap`"),
    ("xds-report 1\n1 5 c1 pin 0 nosnapshot\n  pat a\n", 3, "below no entry"),
    (HEAD + "  req - listener v= n= names=svc\n  pat a\n", 4, "below an entry stand"),
    (HEAD + "  req - listener n= v= names=svc\n", 3, "`v=`"),
    (HEAD + "  req - listener v= n= names=svc nodes\n", 3, "`node`"),
    (HEAD + "  snap 2 front=!absent\n", 3, "1 comes next"),
    (HEAD + "  snap 1 front=!absence\n", 3, "neither a listener"),
    (HEAD + "  snap 1 front=a,b\n", 3, "neither a listener"),
    (HEAD + "  snap 1 front=a,b,0 web\n", 3, "isn't a cluster"),
    (HEAD + "  snap 1 front=a,b,0 web=web/0:ready\n", 3, "no child"),
    (HEAD + "  snap 1 front=a,b,0 web=*web:ready\n", 3, "isn't a child"),
    (HEAD + "  snap 1 front=a,b,0 web=*web/0:none+\n", 3, "isn't there"),
    (HEAD + "  snap 1 front=a,b,0 web=!web\n", 3, "no reason"),
    (HEAD + "  snap 1 front=a,b,0 b=*b/0:ready a=*a/0:ready\n", 3, "order"),
    (HEAD + "end 2 0\n", 3, "counts 2 entries"),
    (HEAD + "end 1 1\n", 3, "counts 1 snapshots"),
    (HEAD + "end 1 0\n\n", 4, "after the `end` line"),
]


class Faults(unittest.TestCase):
    def test_each_fault_has_its_line(self):
        for text, line, part in FAULTS:
            with self.subTest(text=text), self.assertRaises(model.Fault) as caught:
                read_report(text.encode())
            self.assertEqual(caught.exception.line, line, text)
            self.assertIn(part, caught.exception.sentence)

    def test_damaged_reports(self):
        """A report with a character, a word or a line taken out is refused, or is another report."""
        chance = random.Random(7)
        for path in EXAMPLES + SMALL:
            for _ in range(20):
                data = damage(path.read_bytes(), chance)
                try:
                    lines = read_report(data).lines()
                except model.Fault as fault:
                    self.assertLessEqual(fault.line, data.count(b"\n") + 1)
                else:
                    self.assertEqual("".join(line + "\n" for line in lines).encode(), data)


def damage(data: bytes, chance: random.Random) -> bytes:
    """The bytes without a piece, which is a line, a word or a byte."""
    piece = chance.choice([rb"[^\n]*\n", rb" [^ \n]*", rb"."])
    taken = chance.choice(list(re.finditer(piece, data)))
    return data[:taken.start()] + data[taken.end():]


class Sentences(unittest.TestCase):
    def check(self, story: Story, *sentences: str, session=None) -> None:
        text = text_of(story, session)
        for sentence in sentences:
            self.assertIn(sentence, text)

    def test_streams(self):
        self.check(
            small("streams"),
            "opens anew; the stream before counts as lost",
            "A message says that it is compressed",
            "A message of 4,194,305 bytes, above 4,194,304, is announced",
            "had ended within this line",
            "The pattern `a(` can't be built",
            "resource 1 is refused, since its bytes can't be read (unreadable)",
            "should be lost, but none was open")

    def test_streams_of_the_story(self):
        runs = [(run.authority, run.start, run.end) for run in small("streams").streams]
        self.assertEqual(runs, [(None, 1, 5), ("a.example", 2, 12), (None, 9, 10), (None, 10, 11), ("", 14, 15),
                                (None, 16, 21)])

    def test_calls(self):
        self.check(
            small("calls"),
            "Call 5 meets route 2 of snapshot 1, which leads to no cluster",
            "Call 2 is dropped by the drop rule `shed`",
            "Call 2 waits: by snapshot 1 x/0 of g is chosen",
            "Cluster lost is in error there, so the call fails",
            "One earlier pick was given that locality, so the turn is 1, which falls on place 1 of its ready "
            "endpoints: [::1]:80.",
            "it was committed before, at entry 25",
            "The children before it are passed over: priority 0 failing.",
            "Call 7 of caller 1 is never started")

    def test_trees(self):
        self.check(
            small("trees"),
            "g: a new tree waits while the old one serves: *b/0 failing; *b/1 connecting, chosen, pending.",
            "g: in the tree that waits: *b/1 no longer pending.",
            "g: the tree that waited takes over",
            "g: x/0 connecting → ready; y/0 not there → connecting, now pending, now out of use.",
            "!no is gone.",
            "Snapshot 8 reads like the one before",
            "Snapshot 9. The front is now no routes")

    def test_failover(self):
        self.check(
            story_of(EXAMPLE),
            "priority 0 connecting → ready, now chosen; priority 1 no longer chosen, now out of use.",
            "priority 1 ready → not there.")

    def test_session_beside(self):
        story, session = story_of(EXAMPLE), session_of(EXAMPLE)
        self.check(story, "[line 9: d endpoint 10.0.0.1:80 failing]", "(272 bytes)]", session=session)
        self.assertEqual(shorten("c 1 start 0 0 /\x1b"), "c 1 start 0 0 /\\x1b")
        self.assertEqual(shorten("@7 d data - " + "ab" * 20), "@7 d data - abababababababab… (20 bytes)")

    def test_filters(self):
        story = small("calls")
        rows = [(Selection(call=1), [7, 9, 10, 11, 13, 25, 26]),
                (Selection(cluster="g"), [5, 7, 12, 14, 15, 16, 17, 27]),
                (Selection(lines=(12, 14), actor=1), [11, 13])]
        for selection, entries in rows:
            taken = [moment.entry.number for moment in story.moments if selection.takes(moment, story)]
            self.assertEqual(taken, entries)


class CommandLine(unittest.TestCase):
    def test_page(self):
        done = run(EXAMPLE, EXAMPLE.with_suffix(".session"))
        self.assertEqual((done.returncode, done.stderr), (0, b""))
        self.assertTrue(done.stdout.startswith(b"<!DOCTYPE html>"))

    def test_standard_input(self):
        self.assertEqual(run("--text", "-", data=EXAMPLE.read_bytes()).stdout, run("--text", EXAMPLE).stdout)

    def test_why(self):
        done = run("--text", "--why", "1", ROOT / "tests" / "reports" / "calls.report")
        self.assertEqual(done.returncode, 0)
        self.assertTrue(done.stdout.startswith(b"Why call 1 went where it went:"))

    def test_why_in_the_document(self):
        example = ROOT / "examples" / "pick_fails_when_failing"
        said = run("--text", "--why", "0", f"{example}.expected", f"{example}.session").stdout.decode()
        self.assertIn(f"```\n{said.rstrip()}\n```\n", (ROOT / "docs" / "REPORTS.md").read_text())

    def test_help(self):
        done = run("-h")
        self.assertEqual((done.returncode, done.stderr), (0, b""))
        self.assertIn(b"--why", done.stdout)

    def refuse(self, sentence: str, *words, data: bytes = b"") -> None:
        done = run(*words, data=data)
        self.assertEqual((done.returncode, done.stdout), (2, b""))
        self.assertEqual(done.stderr.count(b"\n"), 1)
        self.assertIn(sentence, done.stderr.decode())

    def test_refusals(self):
        self.refuse("the report: line 2: the entry's number is 2", "-", data=b"xds-report 1\n2 0 d sweep ok whole\n")
        self.refuse("can't be read", "no such file")
        self.refuse("the report has no call 9", "--text", "--why", "9", EXAMPLE)
        self.refuse("the report has no cluster nowhere", "--text", "--cluster", "nowhere", EXAMPLE)
        self.refuse("line 1: a session begins", EXAMPLE, EXAMPLE)

    def test_another_session(self):
        other = EXAMPLE.with_name("cluster_kept_until_last_commit.session")
        self.refuse("isn't what entry 8 of the report played", EXAMPLE, other)


@unittest.skipUnless(os.environ.get("REPORT_BROWSER"), "REPORT_BROWSER isn't set")
class Browser(unittest.TestCase):
    def test_page_is_shown(self):
        with tempfile.NamedTemporaryFile("w", suffix=".html", encoding="utf-8") as file:
            file.write(page_of(small("calls")))
            file.flush()
            command = [os.environ["REPORT_BROWSER"], "--headless", "--no-sandbox", "--disable-gpu",
                       "--virtual-time-budget=2000", "--dump-dom", f"file://{file.name}"]
            done = subprocess.run(command, capture_output=True, check=True, timeout=60)
        dom = done.stdout.decode()
        self.assertIn('<output id="shown" for="filter">31 entries</output>', dom)
        self.assertIn("is dropped by the drop rule <code>shed</code>", dom)


def main() -> int:
    """Runs all tests and prints how many passed and failed."""
    suite = unittest.defaultTestLoader.loadTestsFromModule(sys.modules[__name__])
    result = unittest.TextTestRunner(stream=io.StringIO()).run(suite)
    bad = result.failures + result.errors
    for test, trace in bad:
        print(f"{test}: {trace.strip().splitlines()[-1][:1000]}")
    print(f"show_reports: {result.testsRun - len(bad) - len(result.skipped)} passed, {len(bad)} failed")
    return 1 if bad else 0


if __name__ == "__main__":
    sys.exit(main())
