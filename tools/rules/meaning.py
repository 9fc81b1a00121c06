"""What a plan means, straight from its definition (docs/PLANS.md): with no slice, no packet, no hash table and no stage by stage.

`Meaning.whole` is the rows of a node over whole tables; of most nodes any order of them will do. It leaves out motions and all
limits but that of the root, and reads a final and its partial as one aggregate. `Meaning.part` is what a node gives at one segment
once it has read all of its input. `flaw` is what isn't lawful in the rows that a query let out.
"""
from __future__ import annotations

from collections import Counter
from typing import Callable

from .packets import Wide
from .plans import MOTIONS, Node, partial_below
from .predicates import truth
from .rows import segment_of
from .slices import DISPATCHER, Cut
from .values import goes_before, in_order, size_of

MOST = 4000  # rows that a node may have


class TooLarge(Exception):
    """A node with so many rows that it isn't worth its time."""


def bag(rows: list) -> Counter:
    return Counter(map(tuple, rows))


def called(call: list, rows: list) -> object:
    """What a call gives over these rows."""
    values = [row[call[1]] for row in rows if row[call[1]] is not None] if len(call) > 1 else rows
    if call[0] == "count":
        return len(values)
    if not values:
        return None
    return Wide(sum(values)) if call[0] == "sum" else {"min": min, "max": max}[call[0]](values, key=size_of)


def joined_up(call: list, values: list) -> object:
    """What a final gives for a call whose partials gave these values."""
    values = [value for value in values if value is not None]
    if call[0] == "count":
        return sum(values)
    if not values:
        return None
    return Wide(sum(value.number for value in values)) if call[0] == "sum" else {"min": min, "max": max}[call[0]](values, key=size_of)


def grouped(group: list, rows: list, give: Callable[[list], list]) -> list:
    """For each list of values of the group its values and what its rows give."""
    keys = dict.fromkeys(tuple(row[place] for place in group) for row in rows) if group else {(): None}
    return [[*key, *give([row for row in rows if tuple(row[place] for place in group) == key])] for key in keys]


def joined(on: list, left: list, right: list) -> list:
    return [a + b for a in left for b in right if all(a[x] is not None and a[x] == b[y] for x, y in on)]


class Meaning:
    """The meaning of a plan's nodes over tables whose rows are given, whole and by segment."""

    def __init__(self, plan: Cut, table: Callable[[Node], list], rows_of: Callable[[Node, int], list], most: int = MOST) -> None:
        self.most = most
        self.plan = plan
        self.table = table
        self.rows_of = rows_of
        self.parts: dict[tuple[int, int], list] = {}

    def whole(self, node: Node) -> list:
        op = node.value["op"]
        if op == "scan":
            return self.table(node)
        if op == "agg" and node.value["stage"] == "final":
            node = partial_below(node)
        return self._over(node, [self.whole(child) for child in node.children], is_whole=True)

    def _over(self, node: Node, below: list[list], is_whole: bool) -> list:
        """A node's rows over the rows of those below it."""
        value, op = node.value, node.value["op"]
        rows = below[0]
        if op == "filter":
            rows = [row for row in rows if truth(value["where"], row) is True]
        elif op == "project":
            rows = [[row[column] for column in value["columns"]] for row in rows]
        elif op == "join":
            if len(below[0]) * len(below[1]) > self.most * 50:
                raise TooLarge
            rows = joined(value["on"], *below)
        elif op == "agg" and value["stage"] == "final" and not is_whole:
            partial = partial_below(node).value
            width, calls = len(partial["group"]), partial["calls"]
            rows = grouped(list(range(width)), rows, lambda own: [
                joined_up(call, [row[width + at] for row in own]) for at, call in enumerate(calls)
            ])
        elif op == "agg":
            rows = grouped(value["group"], rows, lambda own: [called(call, own) for call in value["calls"]])
        if len(rows) > self.most:
            raise TooLarge
        return rows

    # ---- by segment

    def part(self, node: Node, at: int) -> list:
        if (node.number, at) not in self.parts:
            self.parts[node.number, at] = self._part(node, at)
        return self.parts[node.number, at]

    def _part(self, node: Node, at: int) -> list:
        op = node.value["op"]
        if op == "scan":
            return self.rows_of(node, at)
        if op in MOTIONS:
            senders = self.plan.slice_of(node).gang
            return [row for sender in senders for row in self.routed(node, sender, at)]
        return self._over(node, [self.part(child, at) for child in node.children], is_whole=False)

    def routed(self, motion: Node, sender: int, to: int) -> list:
        """The rows that a motion sends on a connection, if all are sent."""
        rows = self.part(motion.children[0], sender)
        if motion.value["op"] != "redistribute":
            return rows
        return [row for row in rows if segment_of(row, motion.value["keys"], self.plan.segments) == to]

    # ---- what is lawful

    def flaw_of_answer(self, rows: list) -> str | None:
        """What isn't lawful in the rows that a query let out."""
        root, order = self.plan.root, self.plan.seen[0].order
        is_limit = root.value["op"] == "limit"
        all_rows = self.whole(root.children[0] if is_limit else root)
        size = min(root.value["count"], len(all_rows)) if is_limit else len(all_rows)
        if len(rows) != size:
            return f"{len(rows)} rows, and not {size}"
        more = bag(rows) - bag(all_rows)
        if more:
            return f"the row {list(next(iter(more)))}, which isn't in the answer, or not so often"
        if any(goes_before(order, b, a) for a, b in zip(rows, rows[1:])):
            return f"rows that aren't in the order {order}"
        left = in_order([list(row) for row in (bag(all_rows) - bag(rows)).elements()], order)
        if rows and left and goes_before(order, left[0], rows[-1]):
            return f"no row {left[0]}, which goes before {rows[-1]}"
        return None

    def flaw_of_parts(self) -> str | None:
        """What isn't as it should be of the root's part, which is to be its meaning."""
        root = self.plan.root
        found, wanted = bag(self.part(root, DISPATCHER)), bag(self.whole(root))
        return None if found == wanted else f"the root's part is {found}, and not {wanted}"


def meaning_of(plan: Cut, tables: dict, rows_of: Callable[[Node, int], list], most: int = MOST) -> Meaning:
    return Meaning(plan, lambda scan: tables[scan.value["table"]]["rows"], rows_of, most)


