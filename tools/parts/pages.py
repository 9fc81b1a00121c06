"""Pages for people, taken apart: blocks, prose, tables."""
from __future__ import annotations

import re
from dataclasses import dataclass
from functools import lru_cache
from pathlib import Path
from typing import Iterator

APART = {"out", ".git", "__pycache__"}


def text_of(path: Path) -> str:
    return path.read_bytes().decode("utf-8", "replace")


def is_ours(path: Path) -> bool:
    return not APART & set(path.parts)


def pages() -> list[Path]:
    return sorted(path for path in Path().rglob("*.md") if is_ours(path))


@lru_cache(maxsize=None)
def crates() -> dict[str, list[str]]:
    """Each crate with those that it names: lowest first."""
    lines = (line.split("#")[0] for line in text_of(Path("crates.txt")).splitlines())
    pairs = (line.partition(":") for line in lines if ":" in line)
    return {name.split()[0]: rest.split() for name, _, rest in pairs}


@lru_cache(maxsize=None)
def below(crate: str) -> frozenset[str]:
    """The crate with all of ours that it stands on."""
    found = {crate}
    for name in crates().get(crate, []):
        if name in crates():
            found |= below(name)
    return frozenset(found)


def blocks(text: str) -> list[tuple[int, list[str]]]:
    """The fenced blocks: the number of the first line of each, and its lines."""
    found, fence = [], None
    for number, line in enumerate(text.splitlines(), 1):
        mark = re.match(r"\s*(`{3,}|~{3,})", line)
        if fence is None and mark:
            fence, begin, lines = mark.group(1), number + 1, []
        elif fence and mark and mark.group(1).startswith(fence) and line.strip() == mark.group(1):
            found.append((begin, lines))
            fence = None
        elif fence:
            lines.append(line)
    return found


def prose(text: str) -> list[tuple[int, str]]:
    """The numbered lines outside of fenced blocks."""
    inside = {n for begin, lines in blocks(text) for n in range(begin - 1, begin + len(lines) + 1)}
    return [(number, line) for number, line in enumerate(text.splitlines(), 1) if number not in inside]


@dataclass
class Row:
    """A row of a table: its line, its cells by the heads of their columns, and what the text above it names."""

    number: int
    cells: dict[str, str]
    heads: list[str]
    crate: str | None  # the last one in the section
    home: str | None  # the one in the heading, or at the beginning of a line since
    files: list[str]  # those of the last line that names files of code


def cells_of(line: str) -> list[str]:
    return [cell.strip() for cell in re.split(r"(?<!\\)\|", line.strip().strip("|"))]


def rows(text: str) -> Iterator[Row]:
    """The rows of all tables of a page."""
    heads: list[str] = []
    previous, crate, home, files = "", None, None, []
    for number, line in prose(text):
        words = ticked(line)
        if line.startswith("#"):
            crate = home = next((word for word in re.findall(r"\w+", line) if word in crates()), None)
            files = []
        if not line.lstrip().startswith("|"):
            heads = []
            crate = next((word for word in reversed(words) if word in crates()), crate)
            home = words[0] if words[:1] and words[0] in crates() and line.startswith("`") else home
            files = [word for word in words if re.search(r"\.(?:rt|antt)$", word)] or files
        elif re.fullmatch(r"[\s|:-]+", line) and "-" in line:
            heads = [cell.strip("*` ").lower() for cell in cells_of(previous)]
        elif heads:
            yield Row(number, dict(zip(heads, cells_of(line))), heads, crate, home, files)
        previous = line


def columns(text: str, head: str) -> Iterator[tuple[int, str]]:
    """The cells below each table head of this name, with their line numbers."""
    for row in rows(text):
        for name in (head, head + "s"):
            if name in row.cells:
                yield row.number, row.cells[name]


def ticked(text: str) -> list[str]:
    return re.findall(r"`([^`]+)`", text)
