"""The operators of a plan, each over whole lists of rows (docs/PLANS.md, "Nodes" and "Aggregates")."""
from __future__ import annotations

from .packets import Wide
from .predicates import truth
from .values import size_of

COUNT_BITS, SUM_BITS = 64, 128  # a count, a sum of more bits overflows


class Overflow(Exception):
    """An aggregate whose count or sum leaves its bits: its node's number."""

    def __init__(self, node: int) -> None:
        super().__init__(node)
        self.node = node


def filtered(where: list, rows: list) -> list:
    return [row for row in rows if truth(where, row) is True]


def projected(columns: list, rows: list) -> list:
    return [[row[column] for column in columns] for row in rows]


class Matches:
    """The right rows of a join by their values of `on`; a row with a null there matches nothing."""

    def __init__(self, on: list, right: list) -> None:
        self.on = on
        self.found: dict[tuple, list] = {}
        for row in right:
            self.found.setdefault(tuple(row[b] for _, b in on), []).append(row)

    def of(self, row: list) -> list:
        """What a left row gives, in the order of the right rows."""
        values = tuple(row[a] for a, _ in self.on)
        return [] if None in values else [row + other for other in self.found.get(values, [])]


# ---- aggregates


def fitting(number: int, bits: int, node: int) -> int:
    if not -(2 ** (bits - 1)) <= number < 2 ** (bits - 1):
        raise Overflow(node)
    return number


def begun(call: list) -> object:
    """What a call gives over nothing."""
    return 0 if call[0] == "count" else None


def gone_on(call: list, value: object, row: list, node: int) -> object:
    """What it gives over one row more."""
    new = row[call[1]] if len(call) > 1 else True
    if new is None:
        return value
    if call[0] == "count":
        return fitting(value + 1, COUNT_BITS, node)
    if call[0] == "sum":
        return Wide(fitting((value.number if value else 0) + new, SUM_BITS, node))
    return farther(call[0], value, new)


def added(call: list, value: object, new: object, node: int) -> object:
    """What it gives over its own values of two parts."""
    if new is None:
        return value
    if call[0] == "count":
        return fitting(value + new, COUNT_BITS, node)
    if call[0] == "sum":
        return Wide(fitting((value.number if value else 0) + new.number, SUM_BITS, node))
    return farther(call[0], value, new)


def farther(word: str, value: object, new: object) -> object:
    """The lesser or the greater one."""
    if value is None:
        return new
    return new if (size_of(new) < size_of(value)) == (word == "min") else value


class Groups:
    """Groups that grow row by row, in the order of their first rows. A final is given the rows of its partial."""

    def __init__(self, is_final: bool, group: list, calls: list, node: int) -> None:
        self.is_final = is_final
        self.group = list(range(len(group))) if is_final else group
        self.calls = calls
        self.node = node
        self.values: dict[tuple, list] = {} if group else {(): [begun(call) for call in calls]}

    def take(self, row: list) -> None:
        held = self.values.setdefault(tuple(row[place] for place in self.group), [begun(call) for call in self.calls])
        for at, call in enumerate(self.calls):
            if self.is_final:
                held[at] = added(call, held[at], row[len(self.group) + at], self.node)
            else:
                held[at] = gone_on(call, held[at], row, self.node)

    def rows(self) -> list:
        return [[*group, *values] for group, values in self.values.items()]
