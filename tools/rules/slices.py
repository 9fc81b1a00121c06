"""A plan cut into slices at its motions (docs/PLANS.md, "Slices")."""
from __future__ import annotations

from dataclasses import dataclass, field

from .plans import MOTIONS, REPLICATED, Node, Seen

DISPATCHER = -1


@dataclass
class Slice:
    """The slice of a number: its topmost node, the segments that work it, and the motion on which it sends, if it isn't slice 0."""

    number: int
    top: Node
    gang: list[int]
    motion: Node | None = None
    receivers: list[int] = field(default_factory=list)


@dataclass
class Cut:
    """A sound plan, what is known of its nodes, and its slices, by their numbers. Motion m is that on which slice m sends."""

    root: Node
    seen: dict[int, Seen]
    segments: int
    slices: list[Slice] = field(default_factory=list)
    motions: dict[int, int] = field(default_factory=dict)  # the number of a motion by its node's number

    def slice_of(self, motion: Node) -> Slice:
        """The slice that sends on a motion."""
        return self.slices[self.motions[motion.number]]

    def connections(self) -> list[tuple[int, int, int]]:
        """Motion, sending and receiving end of each connection, in order."""
        return [(it.number, a, b) for it in self.slices[1:] for a in it.gang for b in it.receivers]


def cut(root: Node, seen: dict[int, Seen], segments: int) -> Cut:
    found = Cut(root, seen, segments, [Slice(0, root, [DISPATCHER])])

    def walk(node: Node, gang: list[int]) -> None:
        if node.value["op"] in MOTIONS:
            child = node.children[0]
            senders = [0] if seen[child.number].locus == REPLICATED else list(range(segments))
            found.motions[node.number] = len(found.slices)
            found.slices.append(Slice(len(found.slices), child, senders, node, gang))
            gang = senders
        for child in node.children:
            walk(child, gang)

    walk(root, found.slices[0].gang)
    return found
