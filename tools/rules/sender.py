"""One sending end (docs/PROTOCOL.md, "The sending end"). Of payloads it knows the rows that end in them, and no bytes."""
from __future__ import annotations

from dataclasses import dataclass, field

from .window import Window

FULL, STOPPED, OK = "full", "stopped", "ok"


GREATEST = 4294967295  # the last number that a packet may have


class TooLong(Exception):
    """A connection whose packets have used up their numbers."""


@dataclass
class Spent:
    """A packet, or a status query, that was sent again as often as is allowed."""

    seq: int
    tries: int


@dataclass
class Packet:
    """A sealed packet, with what is known of it once it was emitted."""

    seq: int
    rows: list
    last: bool
    emitted: int | None = None  # the tick of its first emission
    due: int = 0
    tries: int = 0
    resent: bool = False


@dataclass
class Out:
    """What a sender emits: its kind, its number, and of rows what ends in it."""

    kind: str
    seq: int
    rows: list = field(default_factory=list)


class Sender:
    def __init__(self, settings: dict) -> None:
        self.packet = settings["packet"]
        self.ring = settings["send_depth"]
        self.depth = settings["receive_depth"]
        self.retries = settings["retries"]
        self.window = Window(self.depth, settings["flow"])
        self.filled = 0
        self.filling: list = []
        self.kept: list[Packet] = []
        self.sealed = 0
        self.emitted = self.heard = self.consumed = 0  # E, A and C of the page
        self.finished = self.stopped = False
        self.query_due: int | None = None
        self.query_tries = 0
        self.put_rows: list = []
        self.resent = 0

    # ---- what the slice asks

    def put(self, size: int, ended: list, now: int) -> tuple[str, list[Out]]:
        """Puts a chunk of this size, its head included, that ends these rows: one or none."""
        if self.stopped:
            return STOPPED, []
        if self.filled + size > self.packet - 68:
            if len(self.kept) == self.ring:
                return FULL, []
            self._seal(False)
        self.filled += size
        self.filling += ended
        self.put_rows += ended
        return OK, self._go(now)

    def finish(self, now: int) -> tuple[str, list[Out]]:
        if self.stopped:
            return STOPPED, []
        if len(self.kept) == self.ring:
            return FULL, []
        self._seal(True)
        self.finished = True
        return OK, self._go(now)

    def is_clear(self) -> bool:
        return self.stopped or (self.finished and not self.kept)

    def _seal(self, last: bool) -> None:
        if self.sealed == GREATEST:
            raise TooLong
        self.sealed += 1
        self.kept.append(Packet(self.sealed, self.filling, last))
        self.filled, self.filling = 0, []

    # ---- what it emits

    def _capacity(self) -> int:
        return self.depth - (self.emitted - self.consumed)

    def _go(self, now: int) -> list[Out]:
        """Emits what there is room for; then it is judged whether a status query is to stand."""
        out = []
        unsent = [packet for packet in self.kept if packet.emitted is None] if self.emitted < self.sealed else []
        for packet in unsent[: self.window.room(self.emitted - self.heard, self._capacity())]:
            packet.emitted, packet.due, packet.tries = now, now + self.window.wait(0), 0
            self.emitted = packet.seq
            out.append(self._copy(packet))
        if self._capacity() > 0:
            self.query_due = None
        elif self.query_due is None and self.emitted == self.heard and self.emitted < self.sealed:
            self.query_due, self.query_tries = now + self.window.wait(0), 0
        return out

    def _copy(self, packet: Packet) -> Out:
        return Out("last" if packet.last else "rows", packet.seq, packet.rows)

    def _again(self, packet: Packet) -> Out:
        packet.resent = True
        self.resent += 1
        return self._copy(packet)

    # ---- what it hears

    def hear(self, kind: str, seq: int, extra: int, missing: list[int], now: int) -> list[Out]:
        if self.stopped:
            return []
        if kind == "stop":
            self.stopped, self.kept, self.query_due = True, [], None
            return []
        if self._is_stray(kind, seq, extra, missing):
            return []
        upto = {"ack": seq, "duplicate": extra, "nak": 0}.get(kind, missing[0] - 1 if missing else 0)
        self._free(upto, now)
        if kind == "ack":
            self.consumed = max(self.consumed, extra)
        else:
            for packet in self.kept:
                if packet.seq == seq:
                    packet.tries = 0
        if self.query_due is not None:
            self.query_due, self.query_tries = now + self.window.wait(0), 0
        again = [packet for packet in self.kept if packet.seq in missing and packet.emitted is not None]
        out = [self._again(packet) for packet in again]
        if again:
            self.window.lost()
        return out + self._go(now)

    def _is_stray(self, kind: str, seq: int, extra: int, missing: list[int]) -> bool:
        if seq > self.emitted:
            return True
        if kind == "ack":
            return extra > seq
        if kind == "duplicate":
            return extra > self.emitted
        if kind == "disorder":
            rising = all(a < b for a, b in zip([0, *missing], missing))
            return extra > self.emitted or not rising or missing[-1] >= extra
        return False

    def _free(self, upto: int, now: int) -> None:
        freed = [packet for packet in self.kept if packet.seq <= upto]
        self.kept = self.kept[len(freed) :]
        self.heard = max(self.heard, upto)
        self.window.grown(len(freed))
        if freed and not freed[-1].resent:
            self.window.sample(now - freed[-1].emitted)

    # ---- what a tick makes of it

    def waits(self) -> bool:
        """Whether anything is kept."""
        return bool(self.kept)

    def due(self, now: int) -> list[Packet]:
        return [packet for packet in self.kept if packet.emitted is not None and packet.due <= now]

    def spent_of(self, due: list[Packet]) -> Spent | None:
        """The first of these packets that may not be sent again."""
        for packet in due:
            if packet.tries == self.retries:
                return Spent(packet.seq, packet.tries)
        return None

    def query_is_due(self, now: int) -> bool:
        return self.query_due is not None and self.query_due <= now

    def spent_query(self) -> Spent | None:
        return Spent(self.emitted, self.query_tries) if self.query_tries == self.retries else None

    def send_again(self, due: list[Packet], now: int) -> list[Out]:
        out = []
        for packet in due:
            packet.tries += 1
            packet.due = now + self.window.wait(packet.tries)
            out.append(self._again(packet))
        if due:
            self.window.lost()
        return out

    def query_again(self, now: int) -> list[Out]:
        self.query_tries += 1
        self.query_due = now + self.window.wait(self.query_tries)
        return [Out("query", self.emitted)]
