"""A slice at one segment, turn by turn (crates/ex_slice/README.md, crates/ic_motion/README.md).

A turn makes at most one call of its hub, and at slice 0 lets at most one row out. It answers whether the worker may go on at once.
"""
from __future__ import annotations

from typing import Callable

from . import rows as spelling
from .hub import Hub
from .plans import MOTIONS, Node
from .sender import FULL, STOPPED
from .slices import Cut, Slice
from .streams import MORE, WAIT, Stream, stream_of
from .values import goes_before

GIVING, ENDING, HALTING, DONE = "giving", "ending", "halting", "done"


class Hearing:
    """The receiving end of a motion: the rows of each sender that were taken and not yet given."""

    def __init__(self, hub: Hub, motion: int, senders: list[int], order: list | None) -> None:
        self.hub = hub
        self.motion = motion
        self.order = order
        self.held: dict[int, list] = {sender: [] for sender in senders}
        self.open = list(senders)  # those whose last packet wasn't taken
        self.halted: set[int] = set()

    def stream(self) -> Stream:
        while True:
            sender = self._next()
            if sender is not None:
                yield self.held[sender].pop(0)
            elif self.open:
                yield self._take()
            else:
                return

    def _next(self) -> int | None:
        """The sender whose row is given next, if one can be given."""
        heads = [sender for sender, rows in self.held.items() if rows]
        if self.order is None:
            return heads[0] if heads else None
        if self._asked() is not None:
            return None
        least = None
        for sender in heads:
            if least is None or goes_before(self.order, self.held[sender][0], self.held[least][0]):
                least = sender
        return least

    def _asked(self) -> int | None:
        """The first sender that goes on and whose next row isn't known."""
        return next((sender for sender in self.open if not self.held[sender]), None)

    def _take(self) -> str:
        taken = self.hub.take(self.motion) if self.order is None else self.hub.take_from(self.motion, self._asked())
        if taken is None:
            return WAIT
        sender, rows, last = taken
        self.held[sender] += rows
        if last:
            self.open.remove(sender)
        return MORE

    def halt_one(self) -> bool:
        """Halts the first sender from which more may come. Whether there was one."""
        for sender in self.open:
            if sender not in self.halted:
                self.hub.halt(self.motion, sender)
                self.halted.add(sender)
                return True
        return False


class Sending:
    """The sending end of a motion: what is still to be put of the row in hand, and which receivers want more."""

    def __init__(self, hub: Hub, slice_: Slice, packet: int, segments: int) -> None:
        self.hub = hub
        self.motion = slice_.number
        self.value = slice_.motion.value
        self.packet = packet
        self.segments = segments
        self.wanting = list(slice_.receivers)
        self.unfinished = list(slice_.receivers)
        self.work: list[tuple[int, int, list]] = []  # receiver, size of a chunk, the row that ends in it

    def begin(self, row: list) -> None:
        chunks = spelling.chunks_of([row], self.packet)
        receivers = self.wanting
        if self.value["op"] == "redistribute":
            to = spelling.segment_of(row, self.value["keys"], self.segments)
            receivers = [to] if to in self.wanting else []
        self.work = [(to, size, ended) for size, ended in chunks for to in receivers]

    def put_one(self) -> str:
        """Puts the next chunk of the row in hand."""
        to, size, ended = self.work[0]
        answer = self.hub.put(self.motion, to, size, ended)
        if answer == STOPPED:
            self._stopped(to)
        elif answer != FULL:
            self.work.pop(0)
        return answer

    def finish_one(self) -> str:
        """Finishes the first stream that is to be finished."""
        to = self.unfinished[0]
        answer = self.hub.finish(self.motion, to)
        if answer == STOPPED:
            self._stopped(to)
        elif answer != FULL:
            self.unfinished.remove(to)
        return answer

    def _stopped(self, to: int) -> None:
        self.wanting.remove(to)
        self.unfinished.remove(to)
        self.work = [it for it in self.work if it[0] != to]


class Worker:
    def __init__(self, plan: Cut, slice_: Slice, hub: Hub, packet: int, rows_of: Callable[[Node, int], list]) -> None:
        self.hub = hub
        self.plan = plan
        self.rows_of = rows_of
        self.heard: list[Hearing] = []
        self.stream = stream_of(slice_.top, self._leaf)
        self.sending = Sending(hub, slice_, packet, plan.segments) if slice_.motion else None
        self.stage = GIVING
        self.let_out: list = []

    def _leaf(self, node: Node) -> Stream | None:
        op = node.value["op"]
        if op == "scan":
            return iter(self.rows_of(node, self.hub.at))
        if op not in MOTIONS:
            return None
        below = self.plan.slice_of(node)
        self.heard.append(Hearing(self.hub, below.number, below.gang, node.value.get("order")))
        return self.heard[-1].stream()

    @property
    def done(self) -> bool:
        return self.stage == DONE

    def turn(self) -> bool:
        if self.stage == GIVING:
            return self._give()
        if self.stage == ENDING:
            return self._end()
        if self.stage == HALTING and not any(it.halt_one() for it in self.heard):
            self.stage = DONE
        return self.stage != DONE

    def _give(self) -> bool:
        if self.sending is not None and self.sending.work:
            return self._put()
        item = next(self.stream, None)
        if item is None:
            self.stage = ENDING
        elif item is WAIT:
            return False
        elif item is not MORE and self.sending is None:
            self.let_out.append(item)
        elif item is not MORE:
            self.sending.begin(item)
            return not self.sending.work or self._put()
        return True

    def _put(self) -> bool:
        answer = self.sending.put_one()
        if not self.sending.wanting:
            self.stage = HALTING
        return answer != FULL

    def _end(self) -> bool:
        answer = None
        if self.sending is not None and self.sending.unfinished:
            answer = self.sending.finish_one()
        if self.sending is None or not self.sending.unfinished:
            self.stage = HALTING
        return answer != FULL
