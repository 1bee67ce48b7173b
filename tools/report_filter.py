"""Which entries are shown: those of a cluster, a call, session lines or an actor."""

from __future__ import annotations

from dataclasses import dataclass

from report_story import Moment, Story


@dataclass(frozen=True, slots=True)
class Selection:
    """What is asked for; None where anything is."""
    cluster: str | None = None
    call: int | None = None
    lines: tuple[int, int] | None = None
    actor: int | None = None

    def takes(self, moment: Moment, story: Story) -> bool:
        entry = moment.entry
        return ((self.actor is None or entry.actor == self.actor)
                and (self.lines is None or self.lines[0] <= entry.line <= self.lines[1])
                and (self.cluster is None or self.cluster in moment.touches)
                and (self.call is None or self.is_of_call(moment, story)))

    def is_of_call(self, moment: Moment, story: Story) -> bool:
        """Whether the entry is the call's own, or published a snapshot that the call used."""
        call = story.calls.get(self.call)
        if call is None:
            return False
        if moment.entry.actor:
            return moment.entry.event.call == self.call
        return bool(moment.entry.snapshot and moment.entry.snapshot.number in call.snapshots())
