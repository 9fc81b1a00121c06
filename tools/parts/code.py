"""The names that the crates' code has: clauses of functions, types, definitions, files."""
from __future__ import annotations

import re
from functools import lru_cache
from pathlib import Path

from .pages import below, crates, is_ours, text_of

CRATES = Path("crates")
CLAUSE = re.compile(r"\b(?:ensures|requires)\*?\s+([\w-]+)\s*\{")
NAMES = [CLAUSE] + [re.compile(pattern, re.M) for pattern in (
    r"\bghost\s+([\w-]+)\s*[:=]",  # what a trait tells
    r"\bpub\s+([\w-]+)\s*:",  # fields
    r"\b(?:fn|struct|enum|trait|type|const|static|mod|record|data)\s+(?:pub\s+)?([\w-]+)",
    r"\b(?:abbrev|unfoldable|def)\s+(?:pub\s+)?([\w-]+)\s*:",  # definitions
    r"^\s*(?:pub\s+)?([\w-]+)\s*:(?!:)",  # lemmas, and fields of a record
    r"^\s*([A-Z]\w*)\s*(?:,|\(|\{[^}]*\},?$)",  # variants
)]
FOLDERS = {"src", "specs", "proofs", "must-fail"}


def code_of(path: Path) -> str:
    """A file without its comments."""
    return re.sub(r"(?m)^\s*(?://|--).*$", "", text_of(path))


@lru_cache(maxsize=None)
def names_in(crate: str) -> frozenset[str]:
    """The names that the code of a crate has, and those of its files."""
    found: set[str] = set()
    for path in (CRATES / crate).rglob("*"):
        if is_ours(path) and FOLDERS & set(path.parts):
            found.update((path.name, path.stem))
            if path.suffix in (".rt", ".antt"):
                code = code_of(path)
                for pattern in NAMES:
                    found.update(pattern.findall(code))
    return frozenset(found)


@lru_cache(maxsize=None)
def contracts_in(crate: str) -> dict[str, set[str]]:
    """The names of the clauses of each function, and '' if it promises something without a name."""
    found: dict[str, set[str]] = {}
    for path in (CRATES / crate / "src").rglob("*.rt"):
        for part in re.split(r"\bfn\s+", code_of(path))[1:]:
            name = re.match(r"\w*", part).group(0)
            clauses = set(CLAUSE.findall(part))
            unnamed = re.search(r"\bensures\*?\s*\{", part)
            found.setdefault(name, set()).update(clauses | ({""} if unnamed else set()))
    return found


@lru_cache(maxsize=None)
def clauses_in(crate: str) -> frozenset[str]:
    return frozenset(clause for clauses in contracts_in(crate).values() for clause in clauses)


@lru_cache(maxsize=None)
def edits_in(crate: str) -> frozenset[str]:
    return frozenset(path.stem for path in (CRATES / crate / "must-fail").glob("*.edit"))


def homes_of(edit: str) -> list[str]:
    return [crate for crate in crates() if edit in edits_in(crate)]


def parts_of(word: str) -> list[str]:
    """The names of a word such as `Hub::put` or `Sealed.seq`."""
    return [part for part in re.split(r"::|\.", re.sub(r"\(.*\)|<.*>", "", word)) if part]


def is_named(word: str, crate: str, far: bool = False) -> bool:
    """Whether it is a name of the crate's code or a file of the crate; if it may be far, also of a crate below."""
    if "/" in word:
        return any(next(base.glob(word), None) for base in (Path(), CRATES / crate))
    if re.search(r"\.(?:rt|antt|edit)$", word):
        return word in names_in(crate)
    homes = below(crate) if far else {crate}
    names = frozenset().union(*(names_in(home) for home in homes), crates())
    if len(word) > 2 and word[0].isupper() and sum(name.startswith(word) for name in names_in(crate)) > 1:
        return True  # the first part of several types
    parts = parts_of(word)
    return bool(parts) and all(part in names for part in parts)
