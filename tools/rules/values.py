"""Values of a row: their sizes, and the order that keys give to rows (docs/PLANS.md, "Nodes")."""
from __future__ import annotations

from .packets import Wide


def size_of(value: object) -> object:
    """What a value that isn't null is compared by: a number, or a text, of which the order of letters is that of its bytes."""
    return value.number if isinstance(value, Wide) else value


def in_order(rows: list, keys: list) -> list:
    """The rows by these keys, null last in both directions; rows that are equal in all keys stay as they are."""
    for column, way in reversed(keys):
        present = [row for row in rows if row[column] is not None]
        absent = [row for row in rows if row[column] is None]
        rows = sorted(present, key=lambda row: size_of(row[column]), reverse=way == "desc") + absent
    return list(rows)


def goes_before(keys: list, a: list, b: list) -> bool:
    """Whether a row stands before another one in this order, and isn't equal to it in all keys."""
    for column, way in keys:
        x, y = a[column], b[column]
        if x == y:
            continue
        if x is None or y is None:
            return y is None
        return (size_of(x) > size_of(y)) == (way == "desc")
    return False
