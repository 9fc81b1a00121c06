"""The two workers of a gather without an order over a scan, as the program has them while it runs no other plan.

(examples/README.md, "The rounds".) The workers of slices, in worker.py, take their place once it runs every plan.
"""
from __future__ import annotations

from . import rows as spelling
from .hub import Hub
from .sender import FULL, STOPPED
from .slices import DISPATCHER


class Scanner:
    """The worker of a segment that sends: one call a turn."""

    def __init__(self, hub: Hub, rows: list, packet: int) -> None:
        self.hub = hub
        self.chunks = spelling.chunks_of(rows, packet)
        self.at = 0
        self.done = False

    def turn(self) -> bool:
        """Whether it may go on at once."""
        if self.done:
            return False
        if self.at < len(self.chunks):
            answer = self.hub.put(1, DISPATCHER, *self.chunks[self.at])
            self.at += answer not in (FULL, STOPPED)
            self.done = answer == STOPPED
        else:
            answer = self.hub.finish(1, DISPATCHER)
            self.done = answer != FULL
        return answer != FULL and not self.done


class Gatherer:
    """The worker of the dispatcher: one take a turn, which lets out the rows that end in the parcel."""

    def __init__(self, hub: Hub) -> None:
        self.hub = hub
        self.let_out: list = []
        self.done = False

    def turn(self) -> bool:
        if not self.done:
            taken = self.hub.take(1)
            if taken is not None:
                self.let_out += taken[1]
                return True
            self.done = all(end.is_over() for end in self.hub.receivers.values())
        return False
