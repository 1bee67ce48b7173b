"""A report as plain text: each line, and below it what it says."""

from __future__ import annotations

import textwrap
from collections.abc import Iterator

from report_filter import Selection
from report_session import Session
from report_story import CallStory, Moment, Story
from report_why import why_call
from report_words import count_of, entry_words, pattern_words, request_words, snapshot_words

WIDTH = 110
LINE_SHOWN = 400
NOTE = "      "


def text_page(story: Story, session: Session | None, wanted: Selection) -> Iterator[str]:
    """All lines of the text: a summary, the entries that are wanted, and their calls."""
    yield summary(story)
    moments = [moment for moment in story.moments if wanted.takes(moment, story)]
    if len(moments) < len(story.moments):
        yield f"Shown are {len(moments)} of {count_of(len(story.moments), 'entry').replace('entrys', 'entries')}."
    for moment in moments:
        yield ""
        yield from moment_text(moment, story, session)
    calls = {moment.entry.event.call for moment in moments if moment.entry.actor}
    for number in sorted(calls):
        yield ""
        yield from call_text(story.calls[number], story, session)


def summary(story: Story) -> str:
    entries = len(story.moments)
    parts = [f"{entries:,} {'entry' if entries == 1 else 'entries'}", count_of(story.report.snapshots, "snapshot"),
             count_of(len(story.streams), "stream"), count_of(len(story.calls), "call")]
    last = story.moments[-1].entry if story.moments else None
    waits = f"; at the end {last.awaited.text()} is awaited" if last and last.awaited else ""
    return f"A report of {', '.join(parts[:-1])} and {parts[-1]}{waits}."


def moment_text(moment: Moment, story: Story, session: Session | None) -> Iterator[str]:
    """An entry's lines, each followed by its explanation."""
    raw = moment.entry.lines()
    yield short_line(raw[0])
    if session and moment.entry.line:
        yield f"{NOTE}[line {moment.entry.line}: {session.short_line(moment.entry.line)}]"
    yield from wrap([entry_words(moment, story)])
    for line, notes in zip(raw[1:], notes_below(moment), strict=True):
        yield short_line(line)
        yield from wrap(notes)


def notes_below(moment: Moment) -> list[list[str]]:
    """The explanations of the lines below an entry, in their order."""
    notes = [[pattern_words(pattern)] for pattern in moment.entry.patterns]
    notes += [[request_words(request)] for request in moment.requests]
    return notes + ([snapshot_words(moment)] if moment.entry.snapshot else [])


def call_text(call: CallStory, story: Story, session: Session | None) -> Iterator[str]:
    yield f"Why call {call.call} went where it went:"
    yield from wrap(why_call(call, story, session))


def wrap(sentences: list[str]) -> Iterator[str]:
    for sentence in sentences:
        yield from textwrap.wrap(sentence, WIDTH, initial_indent=NOTE, subsequent_indent=NOTE, break_long_words=False,
                                 break_on_hyphens=False)


def short_line(line: str) -> str:
    return line if len(line) <= LINE_SHOWN else f"{line[:LINE_SHOWN]}… ({len(line)} characters)"
