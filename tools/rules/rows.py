"""Rows: their spelling, the segments that have them, the chunks into which they are cut, their text (docs/FORMATS.md)."""
from __future__ import annotations

import json

from .packets import Wide, cut, spelled


def hash_of(spelling: bytes) -> int:
    """FNV-1a in 64 bits."""
    number = 14695981039346656037
    for byte in spelling:
        number = (number ^ byte) * 1099511628211 % 2**64
    return number


def segment_of(row: list, key: list[int], segments: int) -> int:
    """The hash of the key's values, modulo the number of segments."""
    return hash_of(b"".join(spelled(row[position]) for position in key)) % segments


def parts_of(table: dict, segments: int) -> list[list]:
    """The rows that each segment has."""
    if table.get("replicated"):
        return [table["rows"]] * segments
    parts = [[] for _ in range(segments)]
    for number, row in enumerate(table["rows"]):
        at = segment_of(row, table["key"], segments) if "key" in table else number % segments
        parts[at].append(row)
    return parts


def chunks_of(rows: list, packet: int) -> list[tuple[int, list]]:
    """The chunks into which these rows are cut: the size of each with its head, and the row that it ends, if any."""
    chunks: list[tuple[int, list]] = []
    for row in rows:
        *first, last = map(len, cut(row, packet))
        chunks += [(size, []) for size in first]
        chunks.append((last, [row]))
    return chunks


def line_of(row: list) -> str:
    """A row as it is printed."""
    values = [value.number if isinstance(value, Wide) else value for value in row]
    return json.dumps(values, ensure_ascii=False, separators=(",", ":"))
