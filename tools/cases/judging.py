"""What isn't as the rules say of the program's answer, and how a case is told and made small."""
from __future__ import annotations

import base64
import copy
import json
import shlex
import time
from pathlib import Path
from typing import Callable, Iterator

from parts import program
from rules.answer import answer

from .faults import spots
from .making import Case


def unlike(built: Path, case: Case, right: tuple[int, bytes], seconds: float = program.SECONDS) -> str | None:
    """What isn't as it should be of the built program's answer: its end, its status, each byte of both outputs."""
    status, text = right
    got = program.ask(built, case.words, case.source, len(text), seconds)
    if got.stopped is not None:
        return got.stopped
    if got.error:
        return f"wrote to standard error: {got.error[:80]!r}"
    if got.status != status:
        told = f"was stopped by signal {-got.status}" if got.status < 0 else f"ended with status {got.status}"
        return f"{told}, and not {status}: {last_of(got.output)!r}, and not {last_of(text)!r}"
    if got.output == text:
        return None
    there, wanted = got.output.split(b"\n"), text.split(b"\n")
    at = next((i for i, (a, b) in enumerate(zip(there, wanted)) if a != b), min(len(there), len(wanted)))
    line = [lines[at][:200] if at < len(lines) else None for lines in (there, wanted)]
    return f"line {at + 1} is {line[0]!r}, and not {line[1]!r}"


def last_of(text: bytes) -> bytes:
    return text.rstrip(b"\n").split(b"\n")[-1][:200]


# ---- one line to paste


def quoted(word: str) -> str:
    if word.isascii() and word.isprintable():
        return shlex.quote(word)
    return "$'" + "".join(f"\\x{byte:02x}" for byte in word.encode("utf-8", "surrogateescape")) + "'"


def line_of(case: Case) -> str | None:
    """A command that gives the program this case, unless it is too long to be read."""
    words = " ".join(["./icq", *map(quoted, case.words)])
    if case.source.isascii() and case.source.decode().isprintable():
        line = f"echo {shlex.quote(case.source.decode())} | {words}"
    else:
        line = f"base64 -d <<< {base64.b64encode(case.source).decode()} | {words}"
    return line if len(line) < 2000 else None


# ---- a small case that fails too


def shorter(items: list) -> Iterator[list]:
    """The list without a half, a quarter and so on, down to one."""
    size = len(items)
    while size > 1:
        size = (size + 1) // 2
        for at in range(0, len(items), size):
            yield items[:at] + items[at + size :]
        if size == 1:
            return
    if len(items) == 1:
        yield []


def fewer_words(words: list[str]) -> Iterator[list[str]]:
    """The words without one, or with fewer drops."""
    for at, word in enumerate(words[1:], 1):
        yield words[:at] + words[at + 1 :]
        for numbers in shorter(word[5:].split(",")) if word.startswith("drop=") else []:
            if numbers:
                yield [*words[:at], "drop=" + ",".join(numbers), *words[at + 1 :]]


def without_a_column(document: object) -> Iterator[object]:
    """The document without one column of a table, and what the rows have there."""
    if not isinstance(document, dict):
        return
    for number, table in enumerate(document.get("tables") or []):
        for column in range(len(table["columns"]) if "key" not in table else 0):
            small = copy.deepcopy(document)
            del small["tables"][number]["columns"][column]
            for row in small["tables"][number]["rows"]:
                del row[column]
            yield small


def smaller(document: object) -> Iterator[object]:
    """Documents with something left out, or something simple in the place of a part."""
    try:
        yield from without_a_column(document)
    except (TypeError, KeyError, IndexError):
        pass
    found = [(len(json.dumps(held[at])), number, held[at]) for number, (held, at) in enumerate(spots(document, []))]
    for _, number, part in sorted(found, key=lambda it: (-it[0], it[1])):
        changes: list[object] = list(shorter(part)) if isinstance(part, list) else []
        if isinstance(part, dict):
            changes += [part[name] for name in ("child", "left", "right") if name in part]
        if part not in ("a", 1, None) and not isinstance(part, (list, dict, bool)):
            changes.append("a" if isinstance(part, str) else 1)
        for change in [None, *changes]:
            small = copy.deepcopy(document)
            inside, where = spots(small, [])[number]
            if change is None and isinstance(inside, dict):
                del inside[where]
            elif change is not None:
                inside[where] = copy.deepcopy(change)
            else:
                continue
            yield small


def cut_bytes(source: bytes) -> Iterator[bytes]:
    for piece in shorter(list(source)):
        yield bytes(piece)


def size_of(case: Case) -> int:
    return len(case.source) + len(" ".join(case.words))


def made_small(case: Case, fails: Callable[[Case], bool], seconds: float = 20.0) -> Case:
    """The smallest case that was found in this time and that fails too."""
    end = time.monotonic() + seconds
    found: Case | None = case
    while found is not None:
        case, found = found, None
        for small in ways(case):
            if time.monotonic() > end:
                return case
            if size_of(small) < size_of(case) and fails(small):
                found = small
                break
    return case


def ways(case: Case) -> Iterator[Case]:
    for words in fewer_words(case.words):
        yield Case(case.kind, words, case.source)
    try:
        document = json.loads(case.source)
    except ValueError:
        for source in cut_bytes(case.source):
            yield Case(case.kind, case.words, source)
        return
    for small in smaller(document):
        yield Case(case.kind, case.words, json.dumps(small).encode())
