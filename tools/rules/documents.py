"""The first fault of a document, by code and path (docs/FORMATS.md, "Documents")."""
from __future__ import annotations

from typing import Callable

Judge = Callable[[object, str], None]

COMPARISONS = ("=", "<>", "<", "<=", ">", ">=")


class Fault(Exception):
    """A fault of a document: its code and its path."""

    def __init__(self, code: int, path: str) -> None:
        super().__init__(code, path)
        self.code = code
        self.path = path


def number(value: object, path: str, least: int, most: int) -> None:
    if type(value) is not int or not -(2**63) <= value < 2**64:
        raise Fault(4, path)
    if not least <= value <= most:
        raise Fault(5, path)


def position(value: object, path: str) -> None:
    number(value, path, 0, 65535)


def text(value: object, path: str, least: int = 0, most: int = 2**32) -> None:
    if not isinstance(value, str):
        raise Fault(4, path)
    if not least <= len(value.encode("utf-8")) <= most:
        raise Fault(5, path)


def word(value: object, path: str, words: tuple[str, ...]) -> None:
    if not isinstance(value, str) or value not in words:
        raise Fault(4, path)


def array(value: object, path: str, least: int, most: int) -> list:
    if not isinstance(value, list):
        raise Fault(4, path)
    if not least <= len(value) <= most:
        raise Fault(5, path)
    return value


def each(value: object, path: str, least: int, most: int, judge: Judge) -> None:
    for i, element in enumerate(array(value, path, least, most)):
        judge(element, f"{path}[{i}]")


def pair(value: object, path: str, first: Judge, second: Judge) -> None:
    array(value, path, 2, 2)
    first(value[0], f"{path}[0]")
    second(value[1], f"{path}[1]")


def an_object(value: object, path: str) -> dict:
    if not isinstance(value, dict):
        raise Fault(4, path)
    return value


def members(value: dict, path: str, table: list[tuple[str, bool, Judge]]) -> None:
    """Unknown members, the least name first; then each of the table: name, whether it is required, its judge."""
    unknown = set(value) - {name for name, _, _ in table}
    if unknown:
        raise Fault(2, f"{path}.{min(unknown, key=lambda name: name.encode('utf-8'))}")
    for name, required, judge in table:
        if name in value:
            judge(value[name], f"{path}.{name}")
        elif required:
            raise Fault(3, f"{path}.{name}")


# ---- expressions


class Count:
    """How many expressions and operands a predicate has."""

    def __init__(self) -> None:
        self.number = 0


def operand(value: object, path: str, count: Count) -> None:
    count.number += 1
    if value is None or isinstance(value, str):
        return
    if isinstance(value, dict):
        members(value, path, [("col", True, position)])
    else:
        number(value, path, -(2**63), 2**63 - 1)


def expression(value: object, path: str, count: Count) -> None:
    count.number += 1
    if not isinstance(value, list):
        raise Fault(4, path)
    if value:
        word(value[0], f"{path}[0]", COMPARISONS + ("and", "or", "not", "null"))
    op = value[0] if value else "="
    lengths = {"and": (2, 2**32), "or": (2, 2**32), "not": (2, 2), "null": (2, 2)}
    array(value, path, *lengths.get(op, (3, 3)))
    judge = operand if op in COMPARISONS or op == "null" else expression
    for i, part in enumerate(value[1:], 1):
        judge(part, f"{path}[{i}]", count)


def predicate(value: object, path: str) -> None:
    count = Count()
    expression(value, path, count)
    if count.number > 256:
        raise Fault(5, path)


# ---- plans


def sort_key(value: object, path: str) -> None:
    pair(value, path, position, lambda v, p: word(v, p, ("asc", "desc")))


def call(value: object, path: str) -> None:
    if not isinstance(value, list):
        raise Fault(4, path)
    if value:
        word(value[0], f"{path}[0]", ("count", "sum", "min", "max"))
    array(value, path, 1 if value and value[0] == "count" else 2, 2)
    for i, part in enumerate(value[1:], 1):
        position(part, f"{path}[{i}]")


def positions(least: int) -> Judge:
    return lambda value, path: each(value, path, least, 1024, position)


def sort_keys(value: object, path: str) -> None:
    each(value, path, 1, 1024, sort_key)


def pairs(value: object, path: str) -> None:
    each(value, path, 0, 1024, lambda v, p: pair(v, p, position, position))


def node(value: object, path: str, count: Count) -> None:
    count.number += 1
    an_object(value, path)
    child = lambda v, p: node(v, p, count)  # noqa: E731
    passed = lambda v, p: None  # noqa: E731
    calls = lambda v, p: each(v, p, 0, 1024, call)  # noqa: E731
    tables = {
        "scan": [("table", True, text)],
        "filter": [("where", True, predicate), ("child", True, child)],
        "project": [("columns", True, positions(0)), ("child", True, child)],
        "limit": [("count", True, lambda v, p: number(v, p, 0, 2**63 - 1)), ("child", True, child)],
        "sort": [("keys", True, sort_keys), ("child", True, child)],
        "join": [("left", True, child), ("right", True, child), ("on", True, pairs)],
        "agg": [("stage", True, passed), ("group", True, positions(0)), ("calls", True, calls), ("child", True, child)],
        "gather": [("order", False, sort_keys), ("child", True, child)],
        "redistribute": [("keys", True, positions(1)), ("child", True, child)],
        "broadcast": [("child", True, child)],
    }
    if "op" not in value:
        raise Fault(3, f"{path}.op")
    word(value["op"], f"{path}.op", tuple(tables))
    table = tables[value["op"]]
    if value["op"] == "agg":
        if "stage" not in value:
            raise Fault(3, f"{path}.stage")
        word(value["stage"], f"{path}.stage", ("single", "partial", "final"))
        if value["stage"] == "final":
            table = [("stage", True, passed), ("child", True, child)]
    members(value, path, [("op", True, passed), *table])


def plan(value: object, path: str) -> None:
    count = Count()
    node(value, path, count)
    if count.number > 64:
        raise Fault(5, path)


# ---- tables


def columns(value: object, path: str) -> None:
    names: set[str] = set()

    def name(v: object, p: str) -> None:
        text(v, p, 1, 64)
        if v in names:
            raise Fault(6, p)
        names.add(v)

    each(value, path, 1, 256, lambda v, p: pair(v, p, name, lambda w, q: word(w, q, ("int", "text"))))


def key(value: object, path: str, width: int) -> None:
    seen: set[int] = set()
    for i, element in enumerate(array(value, path, 1, 8)):
        number(element, f"{path}[{i}]", 0, width - 1)
        if element in seen:
            raise Fault(5, f"{path}[{i}]")
        seen.add(element)


def row(value: object, path: str, kinds: list[str]) -> None:
    if not isinstance(value, list):
        raise Fault(4, path)
    if len(value) != len(kinds):
        raise Fault(7, path)
    for i, (element, kind) in enumerate(zip(value, kinds)):
        if element is None:
            continue
        if kind == "int":
            number(element, f"{path}[{i}]", -(2**63), 2**63 - 1)
        else:
            text(element, f"{path}[{i}]")


def table(value: object, path: str, names: set[str]) -> None:
    an_object(value, path)

    def name(v: object, p: str) -> None:
        text(v, p, 1, 64)
        if v in names:
            raise Fault(6, p)
        names.add(v)

    def replicated(v: object, p: str) -> None:
        if not isinstance(v, bool):
            raise Fault(4, p)
        if v and "key" in value:
            raise Fault(5, p)

    def rows(v: object, p: str) -> None:
        kinds = [kind for _, kind in value["columns"]]
        each(v, p, 0, 2**32, lambda w, q: row(w, q, kinds))

    members(
        value,
        path,
        [
            ("name", True, name),
            ("columns", True, columns),
            ("key", False, lambda v, p: key(v, p, len(value["columns"]))),
            ("replicated", False, replicated),
            ("rows", True, rows),
        ],
    )


def settings(value: object, path: str) -> None:
    ranges = [("packet", 128, 65507), ("receive_depth", 1, 256), ("send_depth", 1, 256), ("retries", 1, 1000)]
    judges = [(name, False, lambda v, p, a=a, b=b: number(v, p, a, b)) for name, a, b in ranges]
    flow = ("flow", False, lambda v, p: word(v, p, ("loss", "capacity")))
    members(an_object(value, path), path, [*judges, flow])


def first_fault(document: object) -> Fault | None:
    """The first fault of a document that is a value of JSON, if it has one."""
    names: set[str] = set()
    try:
        members(
            an_object(document, "$"),
            "$",
            [
                ("session", True, lambda v, p: number(v, p, 1, 2**31 - 1)),
                ("segments", True, lambda v, p: number(v, p, 1, 64)),
                ("settings", False, settings),
                ("tables", True, lambda v, p: each(v, p, 0, 64, lambda w, q: table(w, q, names))),
                ("queries", True, lambda v, p: each(v, p, 0, 64, plan)),
            ],
        )
    except Fault as fault:
        return fault
    return None
