"""The forms and the limits that CONTRIBUTING.md states, each as it is checked."""
from __future__ import annotations

import re
from pathlib import Path
from typing import Iterator

from .checks import Checks
from .pages import blocks, crates, is_ours, pages, rows, text_of, ticked

SOURCE = 400  # lines of a file of src/
DEFINITIONS = 350  # lines of a definition file
FUNCTION = 60  # lines of a function's body, but for tests
README = 60  # lines of a crate's README
WIDTH = 132  # characters of a line of a page, but for tables and blocks
STATED = (
    f"Sizes in lines, which `tools/check` checks: a file of `src/` at most {SOURCE}, a function's body {FUNCTION} (tests may have more), a file "
    f"of definitions {DEFINITIONS}, a crate's README {README}. A line of a page has at most {WIDTH} characters, but for tables and blocks."
)
HEADS = ("Stands on ", "```", "**Proved**", "**Tested only**", "**A body may still**")


def lines_in(path: Path) -> int:
    return text_of(path).count("\n")


def bodies(code: str) -> Iterator[tuple[str, int]]:
    """Each function of a file with the number of lines of its body."""
    lines = code.split("\n")
    for begin, line in enumerate(lines):
        head = re.match(r"(\s*)(?:pub(?:\([a-z]+\))? )?(?:const )?fn (\w+)", line)
        if not head:
            continue
        indent, opened = head[1], begin if line.endswith("{") else None
        for at in range(begin + 1, len(lines)):
            if lines[at] == indent + "}":
                yield head[2], at - (begin if opened is None else opened) - 1
                break
            if opened is None and lines[at] == indent + "{":
                opened = at
            elif opened is None and lines[at].endswith(";") and re.match(indent + r"\S", lines[at]):
                break


def check_sizes(check: Checks) -> None:
    for path in sorted(Path("crates").rglob("*.rt")):
        if is_ours(path):
            size = lines_in(path)
            check(size <= SOURCE, path, f"has {size} lines, and at most {SOURCE} are allowed")
            for name, body in bodies(text_of(path)) if "tests" not in "/".join(path.parts[2:]) else []:
                check(body <= FUNCTION, path, f"the body of {name} has {body} lines, and at most {FUNCTION} are allowed")
    for path in sorted(Path("crates").glob("*/specs/**/*.antt")):
        size = lines_in(path)
        check(size <= DEFINITIONS, path, f"has {size} lines, and at most {DEFINITIONS} are allowed")
    for path in sorted([*Path().rglob("*.rt"), *Path().rglob("*.antt")]):
        check(path.parts[0] == "crates" or not is_ours(path), path, "lies outside of crates/")


def check_width(check: Checks, page: Path) -> None:
    inside = {n for begin, lines in blocks(text_of(page)) for n in range(begin, begin + len(lines))}
    for number, line in enumerate(text_of(page).splitlines(), 1):
        if number not in inside and not line.lstrip().startswith("|"):
            check(len(line) <= WIDTH, f"{page}:{number}", f"has {len(line)} characters, and at most {WIDTH} are allowed")


def check_readmes(check: Checks) -> None:
    """Each crate's README has its headings."""
    for crate in crates():
        readme = Path("crates") / crate / "README.md"
        if not check(readme.is_file(), readme, "there is no such page"):
            continue
        text = text_of(readme)
        lines = text.splitlines()
        check(lines[:1] == [f"# {crate}"], readme, f"doesn't begin with the line '# {crate}'")
        check(len(lines) > 2 and lines[2][:1].isalpha(), readme, "has no sentence that says what it is for")
        for head in HEADS:
            check(head in text, readme, f"lacks its heading {head.strip('* ')}")
        check(len(lines) <= README, readme, f"has {len(lines)} lines, and at most {README} are allowed")


def check_readers(check: Checks) -> None:
    """The second line of a page in docs/ says who it is for."""
    for page in sorted(Path("docs").glob("*.md")):
        lines = [line for line in text_of(page).splitlines() if line]
        check(len(lines) > 1 and lines[1].startswith("For "), page, "its second line doesn't say who it is for")


def check_map(check: Checks) -> None:
    """A page has a table that names each crate once; no such table names another."""
    whole = []
    for page in (Path("README.md"), *sorted(Path("docs").glob("*.md"))):
        named = [ticked(row.cells["crate"])[0] for row in rows(text_of(page)) if row.heads[:1] == ["crate"] and ticked(row.cells["crate"])]
        for name in named:
            check(name in crates(), page, f"the table of crates names {name}, which crates.txt doesn't")
        whole += [page] if sorted(named) == sorted(crates()) else []
    check(whole, "README.md, docs/", "no page has a table with the head 'crate' that names each crate of crates.txt once")


def check_limits(check: Checks) -> None:
    told = " ".join(text_of(Path("CONTRIBUTING.md")).split())
    check(STATED in told, "CONTRIBUTING.md", f"doesn't state the limits as they are checked: {STATED}")
    check_sizes(check)
    check_readmes(check)
    check_readers(check)
    check_map(check)
    for page in pages():
        check_width(check, page)
