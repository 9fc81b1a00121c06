"""The truth of a predicate in a row: true, false, or unknown, which is None (docs/PLANS.md, "Predicates")."""
from __future__ import annotations

import operator

from .values import size_of

COMPARED = {"=": operator.eq, "<>": operator.ne, "<": operator.lt, "<=": operator.le, ">": operator.gt, ">=": operator.ge}


def value_of(operand: object, row: list) -> object:
    return row[operand["col"]] if isinstance(operand, dict) else operand


def truth(part: list, row: list) -> bool | None:
    word = part[0]
    if word == "null":
        return value_of(part[1], row) is None
    if word == "not":
        found = truth(part[1], row)
        return None if found is None else not found
    if word in ("and", "or"):
        settles = word == "or"
        found = [truth(inner, row) for inner in part[1:]]
        return settles if settles in found else None if None in found else not settles
    a, b = (value_of(operand, row) for operand in part[1:])
    return None if a is None or b is None else COMPARED[word](size_of(a), size_of(b))
