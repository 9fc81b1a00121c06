"""The packets of a query that wait to be sent again (docs/PROTOCOL.md, "Waiting" and "A tick")."""
from __future__ import annotations


class Expiry:
    """Triples of the tick at which a packet is due, its connection and its number."""

    def __init__(self) -> None:
        self.waiting: set[tuple[int, int, int]] = set()

    def put(self, conn: int, seq: int, due: int) -> None:
        self.waiting.add((due, conn, seq))

    def cut(self, conn: int, upto: int) -> None:
        """Takes out the packets of a connection up to this number."""
        self.waiting = {it for it in self.waiting if it[1] != conn or it[2] > upto}

    def due(self, now: int) -> list[tuple[int, int]]:
        """Takes out what is due at this tick, by the tick at which it was due, connection and number."""
        found = sorted(it for it in self.waiting if it[0] <= now)
        self.waiting -= set(found)
        return [(conn, seq) for _, conn, seq in found]
