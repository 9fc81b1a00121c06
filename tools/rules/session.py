"""Queries that run one after the other over a network, in rounds (examples/README.md, "The rounds")."""
from __future__ import annotations

from dataclasses import dataclass
from typing import Callable

from . import built, gathering
from .hub import Given, Hub
from .network import Fate, Network
from .operators import Overflow
from .plans import Node
from .sender import TooLong
from .slices import DISPATCHER, Cut
from .worker import Worker

TURNS = 256  # of a worker in a round


@dataclass
class Tally:
    motion: int
    sender: int
    receiver: int
    sent: list  # rows
    taken: list  # rows
    packets: int
    resent: int
    whole: bool


@dataclass
class Answered:
    """A query that is over: its rows as they were let out, and its tallies."""

    rows: list
    tallies: list[Tally]


class Fault(Exception):
    """The line with which a query ends that isn't over, and its status."""

    def __init__(self, status: int, line: str) -> None:
        super().__init__(line)
        self.status = status
        self.line = line


class Session:
    """A hub for the dispatcher and for each segment, and the network between them."""

    def __init__(self, segments: int, settings: dict, fate: Fate, rounds: int, every_plan: bool = built.EVERY_PLAN) -> None:
        nodes = list(range(DISPATCHER, segments))
        self.network = Network(nodes, fate)
        self.settings = settings
        self.rounds = rounds
        self.every_plan = every_plan
        self.hubs = {at: Hub(at, settings, self.network) for at in nodes}

    def run(self, query: int, plan: Cut, rows_of: Callable[[Node, int], list]) -> Answered:
        """Runs a query, given which rows a scan has at a segment."""
        connections = plan.connections()
        for hub in self.hubs.values():
            hub.begin(query, [it for it in connections if hub.at in it[1:]])
        workers = self._workers(plan, rows_of)
        at_work = {at: [worker for worker in workers if worker.hub.at == at] for at in self.hubs}
        for _ in range(self.rounds):
            self._round(query, workers, at_work)
            if all(hub.left for hub in self.hubs.values()):
                return Answered(workers[-1].let_out, [self._tally(it) for it in connections])
        raise Fault(9, f"error 9 unfinished query {query} rounds {self.rounds}")

    def _workers(self, plan: Cut, rows_of: Callable[[Node, int], list]) -> list:
        """In the order of their turns: from the last slice to slice 0, within a slice by segment."""
        packet = self.settings["packet"]
        if self.every_plan:
            slices = reversed(plan.slices)
            return [Worker(plan, it, self.hubs[at], packet, rows_of) for it in slices for at in it.gang]
        scan = plan.slices[1].top
        scanners = [gathering.Scanner(self.hubs[at], rows_of(scan, at), packet) for at in plan.slices[1].gang]
        return [*scanners, gathering.Gatherer(self.hubs[DISPATCHER])]

    def _round(self, query: int, workers: list, at_work: dict[int, list]) -> None:
        for worker in workers:
            for _ in range(TURNS):
                try:
                    if not worker.turn():
                        break
                except Overflow as over:
                    raise Fault(14, f"error 14 overflow query {query} node {over.node} segment {worker.hub.at}") from None
                except TooLong as long:
                    raise Fault(12, f"error 12 stream too long query {query} {ends_of(long.args[0])}") from None
        for hub in self.hubs.values():
            hub.receive_all()
        for hub in self.hubs.values():
            if hub.quiet:
                try:
                    hub.tick()
                except Given as given:
                    spent = f"seq {given.spent.seq} tries {given.spent.tries}"
                    raise Fault(8, f"error 8 spent query {query} {ends_of(given.connection)} {spent}") from None
        for hub in self.hubs.values():
            if not hub.left and all(worker.done for worker in at_work[hub.at]):
                hub.leave()

    def _tally(self, it: tuple[int, int, int]) -> Tally:
        sender, receiver = self.hubs[it[1]].senders[it], self.hubs[it[2]].receivers[it]
        return Tally(*it, sender.put_rows, receiver.taken_rows, sender.emitted, sender.resent, receiver.whole)


def ends_of(it: tuple[int, int, int]) -> str:
    return f"motion {it[0]} from {it[1]} to {it[2]}"
