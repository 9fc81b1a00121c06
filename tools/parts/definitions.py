"""That what docs/DEFINITIONS.md and other pages name in a file of code is there."""
from __future__ import annotations

import re
from functools import lru_cache
from pathlib import Path
from typing import Iterator

from . import code
from .checks import Checks
from .pages import Row, crates, pages, prose, rows, text_of, ticked

DEFINITIONS = Path("docs/DEFINITIONS.md")


@lru_cache(maxsize=None)
def names_of(file: Path) -> frozenset[str]:
    """What a file of code defines."""
    return frozenset(name for pattern in code.NAMES for name in pattern.findall(code.code_of(file)))


def files_in(row: Row, names: list[str]) -> list[Path]:
    """The files of these names: definitions in the folder specs, code in src of the section's crate; of a crate all of them."""
    found: list[Path] = []
    for name in names:
        if name in crates():
            found += Path("crates", name, "specs").glob("*.antt")
        elif name.startswith("crates/"):
            found.append(Path(name))
        else:
            folder = "src" if name.endswith(".rt") else "specs"
            found.append(Path("crates", row.home or "", folder, name.removeprefix("src/").removeprefix("specs/")))
    return found


def files_of(found: Iterator[Row]) -> Iterator[tuple[Row, list[Path]]]:
    """Each row with the files that it is about: those of its column `file`, `same` for the ones before; else those named above."""
    last: list[Path] = []
    for row in found:
        head = next((head for head in row.heads if head.startswith("file")), None)
        if head is None:
            last = files_in(row, row.files)
        elif "same" not in row.cells[head] or ticked(row.cells[head]):
            last = files_in(row, ticked(row.cells[head]))
        yield row, last


def check_names(check: Checks) -> None:
    """Each name of a table of definitions is defined in a file that its row, or the text above the table, names."""
    if not check(DEFINITIONS.is_file(), DEFINITIONS, "there is no such page"):
        return
    count = 0
    for row, files in files_of(rows(text_of(DEFINITIONS))):
        for word in ticked(row.cells.get("name", row.cells.get("type", ""))):
            count += 1
            place = f"{DEFINITIONS}:{row.number}"
            lost = [str(file) for file in files if not file.is_file()]
            if check(files and not lost, place, f"{word}: no file {', '.join(lost) or 'is named'}"):
                parts = set(code.parts_of(word))
                there = any(parts <= names_of(file) for file in files)
                check(parts and there, place, f"{', '.join(map(str, files[:3]))} defines no {word}")
    check(count, DEFINITIONS, "has no name in a table: an empty list shows nothing")


def check_places(check: Checks) -> None:
    """Where a page says `NAME` in `FILE`, the file has the name."""
    for page in pages():
        for number, line in prose(text_of(page)):
            for word, file in re.findall(r"`([\w:.]+)`(?:, same)? in `(crates/[\w./-]+\.(?:rt|antt))`(?! or)", line):
                if Path(file).is_file():
                    named = all(re.search(rf"\b{part}\b", text_of(Path(file))) for part in code.parts_of(word))
                    check(named, f"{page}:{number}", f"{file} has no {word}")


def check_definitions(check: Checks) -> None:
    check_names(check)
    check_places(check)
