"""One receiving end (docs/PROTOCOL.md, "The receiving end")."""
from __future__ import annotations

from dataclasses import dataclass, field


@dataclass
class Answer:
    kind: str
    seq: int
    extra: int
    missing: list[int] = field(default_factory=list)


class Receiver:
    def __init__(self, depth: int) -> None:
        self.depth = depth
        self.run = self.consumed = 0
        self.kept: dict[int, tuple[list, bool]] = {}
        self.whole = self.halted = False
        self.taken_rows: list = []

    def on_packet(self, seq: int, rows: list, last: bool) -> Answer | None:
        if self.halted:
            return Answer("stop", seq, 0)
        if seq <= self.run or seq in self.kept:
            return Answer("duplicate", seq, self.run)
        if seq > self.consumed + self.depth:
            return None
        self.kept[seq] = (rows, last)
        if seq != self.run + 1:
            greatest = max(self.kept)
            missing = [number for number in range(self.run + 1, greatest) if number not in self.kept]
            return Answer("disorder", seq, greatest, missing)
        while self.run + 1 in self.kept:
            self.run += 1
        return self.acknowledges()

    def on_query(self, seq: int) -> Answer:
        return Answer("stop", seq, 0) if self.halted else self.acknowledges()

    def acknowledges(self) -> Answer:
        return Answer("ack", self.run, self.consumed)

    def is_ready(self) -> bool:
        return not self.is_over() and self.consumed + 1 in self.kept

    def is_over(self) -> bool:
        return self.whole or self.halted

    def take(self) -> tuple[list, Answer]:
        """The rows that end in the next packet, and the answer to its sender."""
        self.consumed += 1
        rows, self.whole = self.kept.pop(self.consumed)
        self.taken_rows += rows
        return rows, self.acknowledges()

    def halt(self) -> Answer | None:
        """Wants no more. Nothing, if it has all or was halted before."""
        if self.is_over():
            return None
        self.halted, self.kept = True, {}
        return Answer("stop", 0, 0)
