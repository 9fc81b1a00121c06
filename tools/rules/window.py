"""What one sender may have on its way, and how long it waits for an answer (docs/PROTOCOL.md, "The sending end")."""
from __future__ import annotations

PACKET = 256  # a window counts 1/256 packets
LONGEST = 64  # ticks


class Window:
    """The window in 1/256 packet, its threshold, and the waiting time in ticks."""

    def __init__(self, depth: int, flow: str) -> None:
        self.most = PACKET * depth
        self.fixed = flow == "capacity"
        self.size = self.most if self.fixed else PACKET
        self.threshold = self.most
        self.smoothed: int | None = None  # 8 times the smoothed round trip
        self.deviation = 0  # 4 times the mean deviation

    def grown(self, packets: int) -> None:
        """This many packets were freed."""
        for _ in range(0 if self.fixed else packets):
            step = PACKET if self.size < self.threshold else PACKET * PACKET // self.size
            self.size = min(self.size + step, self.most)

    def lost(self) -> None:
        """Something was lost."""
        if not self.fixed:
            self.threshold = max(self.size // 2, PACKET)
            self.size = PACKET

    def sample(self, ticks: int) -> None:
        """A packet that was sent once was answered after so many ticks."""
        ticks = min(ticks, LONGEST)
        if self.smoothed is None:
            self.smoothed, self.deviation = 8 * ticks, 2 * ticks
            return
        error = ticks - self.smoothed // 8
        self.smoothed += error
        self.deviation += abs(error) - self.deviation // 4

    def wait(self, tries: int) -> int:
        """Ticks until a packet that was sent again so many times is due."""
        time = 4
        if self.smoothed is not None:
            time = max(2, min(LONGEST, self.smoothed // 8 + self.deviation))
        return min(LONGEST, time << min(tries, 6))

    def room(self, in_flight: int, capacity: int) -> int:
        """How many packets more may go out now."""
        return max(0, min(capacity, self.size // PACKET - in_flight))
