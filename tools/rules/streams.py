"""The rows of a slice's operators, one after the other, as the slice at one segment gets them (docs/PLANS.md).

A stream gives rows, and between them MORE for a call of the port that took a parcel, and WAIT for one that took nothing: then
it goes on where it is when the slice has its next turn. So an operator makes no call but to get a row that it needs.
"""
from __future__ import annotations

from typing import Callable, Iterator

from .operators import Groups, Matches
from .plans import Node, partial_below
from .predicates import truth
from .values import in_order

MORE, WAIT = "more", "wait"
Stream = Iterator[object]


def is_row(item: object) -> bool:
    return item is not MORE and item is not WAIT


def filtering(where: list, below: Stream) -> Stream:
    for item in below:
        if not is_row(item) or truth(where, item) is True:
            yield item


def projecting(columns: list, below: Stream) -> Stream:
    for item in below:
        yield [item[column] for column in columns] if is_row(item) else item


def limiting(count: int, below: Stream) -> Stream:
    """Has ended once it gave so many rows, and asks for none more."""
    while count > 0:
        item = next(below, None)
        if item is None:
            return
        yield item
        count -= is_row(item)


def sorting(keys: list, below: Stream) -> Stream:
    rows = []
    for item in below:
        if is_row(item):
            rows.append(item)
        else:
            yield item
    yield from in_order(rows, keys)


def joining(on: list, left: Stream, right: Stream) -> Stream:
    """Takes its whole right side first, and then each left row."""
    rows = []
    for item in right:
        if is_row(item):
            rows.append(item)
        else:
            yield item
    matches = Matches(on, rows)
    for item in left:
        if is_row(item):
            yield from matches.of(item)
        else:
            yield item


def grouping(groups: Groups, below: Stream) -> Stream:
    for item in below:
        if is_row(item):
            groups.take(item)
        else:
            yield item
    yield from groups.rows()


def groups_of(node: Node) -> Groups:
    is_final = node.value["stage"] == "final"
    value = partial_below(node).value if is_final else node.value
    return Groups(is_final, value["group"], value["calls"], node.number)


def stream_of(node: Node, leaf: Callable[[Node], Stream | None]) -> Stream:
    """The stream of a node over its leaves: the scans and the motions that are heard."""
    own = leaf(node)
    if own is not None:
        return own
    value, op = node.value, node.value["op"]
    below = [stream_of(child, leaf) for child in node.children]
    if op == "filter":
        return filtering(value["where"], *below)
    if op == "project":
        return projecting(value["columns"], *below)
    if op == "limit":
        return limiting(value["count"], *below)
    if op == "sort":
        return sorting(value["keys"], *below)
    if op == "join":
        return joining(value["on"], *below)
    return grouping(groups_of(node), *below)
