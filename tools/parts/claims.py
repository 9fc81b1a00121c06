"""What tables claim: each clause is one of the crate that its row names, and each edit is there.

In docs/THEOREMS.md a row's crate is that of its column `crate`, or else the one that the section's text named last. A clause cell
is read so, with ; between parts:
- `a`, `b` of `f`: the function f of this crate has clauses a and b; `a` of `f`, `g`, `h`: all three have it
- `a` alone: a function of this crate has a clause a, or there is a function a that promises something
- what stands in parentheses is named in this crate or in one that it stands on
An edit cell names edits of this crate; `e` of `crate` one of another.
"""
from __future__ import annotations

import re
from pathlib import Path

from . import code
from .checks import Checks
from .pages import Row, columns, crates, rows, text_of, ticked

THEOREMS = Path("docs/THEOREMS.md")


def named_crates(row: Row) -> list[str]:
    """The crates that a row is about."""
    if "crate" in row.cells:
        return [word for word in ticked(row.cells["crate"]) if word in crates()]
    return [row.crate] if row.crate else []


def check_theorem(check: Checks, row: Row) -> None:
    place = f"{THEOREMS}:{row.number}"
    clause, edit = row.cells.get("clause", ""), row.cells.get("edit", "")
    given = named_crates(row)
    if not ticked(clause) and not ticked(edit):
        return
    unknown = [word for word in ticked(row.cells.get("crate", "")) if word not in crates()]
    check(not unknown, place, f"no crate {', '.join(unknown)}")
    if not check(len(given) == 1, place, "the row, or the text above its table, is to name one crate"):
        return
    check_clauses(check, place, clause, given[0])
    check_edits(check, place, edit, given[0])


# ---- clauses


def check_clauses(check: Checks, place: str, cell: str, crate: str) -> None:
    for inside in re.findall(r"\(([^)]*)\)", re.sub(r"`[^`]*`", lambda it: it[0].replace("(", "").replace(")", ""), cell)):
        for word in ticked(inside):
            check(code.is_named(word, crate, far=True), place, f"no {word} in {crate} or below it")
    for part in re.sub(r"\([^)]*\)", "", cell).split(";"):
        check_part(check, place, part, crate)


def check_part(check: Checks, place: str, part: str, crate: str) -> None:
    """One part of a clause cell: lists of clauses, each with its `of` and a list of functions."""
    pieces = re.split(r"\s+of\s+(?=`)", re.sub(r"\s+at\s+`[^`]*`(?:,\s*`[^`]*`)*", "", part))
    clauses = ticked(pieces[0])
    for place_of_piece, piece in enumerate(pieces[1:], 1):
        words = ticked(piece)
        is_last = place_of_piece == len(pieces) - 1
        owners, rest = (words, []) if is_last else (words[:1], words[1:])
        for at, owner in enumerate(owners):
            if at == 0 or not is_promise(owner, crate) or has_clauses(owner, clauses, crate):
                check_owner(check, place, owner, clauses, crate)
        clauses = rest
    for word in clauses:
        check(is_promise(word, crate), place, f"no clause {word} in {crate}{elsewhere(word, crate)}")


def function_of(word: str) -> str:
    return (code.parts_of(word) or [""])[-1]


def has_clauses(owner: str, clauses: list[str], crate: str) -> bool:
    return set(map(function_of, clauses)) <= code.contracts_in(crate).get(function_of(owner), set())


def check_owner(check: Checks, place: str, owner: str, clauses: list[str], crate: str) -> None:
    """The function, or the type or record, that has these clauses."""
    function = function_of(owner)
    contract = code.contracts_in(crate).get(function)
    if contract is None:
        named = function[:1].isupper() and code.is_named(owner, crate)
        check(named, place, f"no function {owner} in {crate}{elsewhere(owner, crate)}")
    for word in clauses:
        if contract is not None:
            right = function_of(word) in contract
        else:
            right = code.is_named(word, crate)
        check(right, place, f"{owner} of {crate} has no clause {word}")


def is_promise(word: str, crate: str) -> bool:
    """A clause of a function of the crate, or a function of it that promises something."""
    name = function_of(word)
    promises = code.contracts_in(crate).get(name)
    return name in code.clauses_in(crate) or bool(promises)


def elsewhere(word: str, crate: str) -> str:
    homes = [other for other in crates() if other != crate and is_promise(word, other)]
    return f" (there is one in {', '.join(homes[:3])})" if homes else ""


# ---- edits


def check_edits(check: Checks, place: str, cell: str, crate: str) -> None:
    for part in cell.split(";"):
        given, _, other = part.partition(" of ")
        home = next(iter(ticked(other)), crate)
        for word in ticked(given):
            edit = re.sub(r"\.edit$", "", Path(word).name)
            homes = code.homes_of(edit)
            there = f" (it is in {', '.join(homes)})" if homes else ""
            check(home in homes, place, f"no edit {edit} in crates/{home}/must-fail{there}")


# ---- all pages


def check_theorems(check: Checks) -> None:
    if not check(THEOREMS.is_file(), THEOREMS, "there is no such page"):
        return
    count = 0
    for row in rows(text_of(THEOREMS)):
        if {"clause", "edit"} & set(row.heads):
            check_theorem(check, row)
            count += 1
    check(count, THEOREMS, "has no row with a clause: an empty list shows nothing")


def check_claims(check: Checks, page: Path) -> None:
    """The clauses and edits of another page: those of a crate's README are of that crate, others of any."""
    homes = [page.parent.name] if page.parent.parent == code.CRATES else list(crates())
    for number, cell in columns(text_of(page), "clause"):
        for word in ticked(cell):
            named = any(code.is_named(word, crate, far=word[:1].isupper()) for crate in homes)
            check(named, f"{page}:{number}", f"no {word} in the code of {homes[0] if len(homes) == 1 else 'any crate'}")
        for given, owner in re.findall(r"((?:`[^`]+`(?:, | and )?)+) of `([^`]+)`", cell):
            contracts = [code.contracts_in(crate) for crate in homes if function_of(owner) in code.contracts_in(crate)]
            for word in ticked(given) if contracts else []:
                right = any(word.split(".")[0] in it[function_of(owner)] or word in it for it in contracts)
                check(right, f"{page}:{number}", f"{owner} has no clause {word}")
    for number, cell in columns(text_of(page), "edit"):
        for word in ticked(cell):
            edit = re.sub(r"\.edit$", "", Path(word).name)
            check(any(edit in code.edits_in(crate) for crate in homes), f"{page}:{number}", f"no must-fail edit {edit}")
