"""The network in memory: which sends it loses, repeats and delays, by a seed (crates/ic_wire/README.md)."""
from __future__ import annotations

from dataclasses import dataclass, field
from heapq import heappop, heappush

MASK = 2**64 - 1


@dataclass
class Fate:
    """What becomes of sends: as the words of `sim` have it."""

    seed: int = 1
    loss: int = 0  # per thousand
    repeat: int = 0  # per thousand
    delay: int = 0  # sends
    drops: list[int] = field(default_factory=list)
    mute: tuple[int, int] | None = None  # from and to

    def draws(self) -> bool:
        return bool(self.loss or self.repeat or self.delay)


class Random:
    """SplitMix64."""

    def __init__(self, seed: int) -> None:
        self.state = seed

    def word(self) -> int:
        self.state = (self.state + 0x9E3779B97F4A7C15) & MASK
        word = self.state
        word = ((word ^ (word >> 30)) * 0xBF58476D1CE4E5B9) & MASK
        word = ((word ^ (word >> 27)) * 0x94D049BB133111EB) & MASK
        return word ^ (word >> 31)


class Network:
    """Datagrams are tuples that begin with the node that sends them and the node to which they go."""

    def __init__(self, nodes: list[int], fate: Fate) -> None:
        self.fate = fate
        self.drops = set(fate.drops)
        self.random = Random(fate.seed)
        self.kept: dict[int, list] = {node: [] for node in nodes}
        self.under_way = 0
        self.in_hand: set[int] = set()
        self.sends = 0

    def send(self, datagram: tuple) -> None:
        self.sends += 1
        if self.sends in self.drops or datagram[:2] == self.fate.mute:
            return
        if not self.fate.draws():  # its words change nothing
            self._keep(self.sends, 1, datagram)
            return
        lost, repeated, late, later = (self.random.word() for _ in range(4))
        if lost % 1000 < self.fate.loss:
            return
        self._keep(self.sends + late % (self.fate.delay + 1), 1, datagram)
        if repeated % 1000 < self.fate.repeat:
            self._keep(self.sends + later % (self.fate.delay + 1), 2, datagram)

    def _keep(self, key: int, copy: int, datagram: tuple) -> None:
        heappush(self.kept[datagram[1]], (key, self.sends, copy, datagram))
        self.under_way += 1

    def receive(self, node: int) -> tuple | None:
        """The copy for this node with the least key, which is in its hand until it receives again."""
        self.in_hand.discard(node)
        if not self.kept[node]:
            return None
        self.in_hand.add(node)
        self.under_way -= 1
        return heappop(self.kept[node])[3]

    def is_quiet(self, node: int) -> bool:
        """Whether nothing is kept for any node, and no other node has a datagram in hand."""
        return self.under_way == 0 and not self.in_hand - {node}
