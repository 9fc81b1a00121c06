"""Commands, links and paths that pages name."""
from __future__ import annotations

import os
import re
import shlex
from functools import lru_cache
from pathlib import Path

from rules.answer import answer

from .checks import Checks
from .pages import blocks, prose, text_of, ticked

PLACES = {"crates", "docs", "examples", "tools", "vectors", "bench", ".ci", "src", "specs", "proofs", "must-fail"}
LAUNCHER = ("--try", "--help", "--version")  # words of the script icq, if it has them


# ---- commands


def check_command(check: Checks, place: str, line: str) -> None:
    line = re.sub(r"\s#.*", "", line)
    words = line.split()
    named = Path(words[0])
    if not check(named.is_file() and os.access(named, os.X_OK), place, f"{words[0]} is no program here"):
        return
    for source in re.findall(r"<\s*(\S+)", line):
        check(Path(source).exists(), place, f"no file {source} for: {line.strip()}")
    if words[0] == "./icq" and len(words) > 1 and words[1] in LAUNCHER:
        check(words[1] in text_of(Path("icq")), place, f"the script icq doesn't know {words[1]}")


def answer_of(line: str) -> str | None:
    """What the program answers to a line `./icq WORDS < FILE`, if it is one."""
    found = re.fullmatch(r"(?:\$ )?\./icq\s+([^<>|;&]*?)\s*<\s*(\S+)", re.sub(r"\s+#.*", "", line.strip()))
    if found is None or not Path(found[2]).is_file():
        return None
    words = [word for word in shlex.split(found[1]) if word not in LAUNCHER]
    return answer(words, Path(found[2]).read_bytes())[1].decode("utf-8")


def check_commands(check: Checks, page: Path) -> None:
    """Each command names what is there; output that is shown after a run of the program is that of this run."""
    found = blocks(text_of(page))
    for place, (begin, lines) in enumerate(found):
        for number, line in enumerate(lines, begin):
            line = re.sub(r"^\$ ", "", line.strip())
            if re.match(r"(?:\./icq|\.ci/run|tools/)(?:\s|\w|$)", line):
                check_command(check, f"{page}:{number}", line)
        said = answer_of(lines[-1]) if lines else None
        shown = found[place + 1][1] if place + 1 < len(found) else []
        if said is not None and re.match(r"\[|# \d|error \d", shown[0] if shown else ""):
            check(said.splitlines() == shown, f"{page}:{begin}", "the next block isn't what this command prints")
    for begin, lines in found:
        runs = [i for i, line in enumerate(lines) if line.startswith("$ ")]
        for i, end in zip(runs, [*runs[1:], len(lines)]):
            said = answer_of(lines[i])
            if said is not None and i + 1 < end:
                check(said.splitlines() == lines[i + 1 : end], f"{page}:{begin + i}", "what is shown isn't what this command prints")


# ---- links and files


@lru_cache(maxsize=None)
def anchors(page: Path) -> set[str]:
    """What GitHub makes of a page's headings."""
    found: set[str] = set()
    for _, line in prose(text_of(page)):
        head = re.match(r"#{1,6}\s+(.*?)\s*#*\s*$", line)
        if head:
            plain = re.sub(r"\[([^\]]*)\]\([^)]*\)", r"\1", head.group(1)).lower()
            base = slug = re.sub(r"[^\w\- ]", "", plain).replace(" ", "-")
            again = 0
            while slug in found:
                again += 1
                slug = f"{base}-{again}"
            found.add(slug)
        found.update(re.findall(r"<a (?:id|name)=\"([^\"]+)\"", line))
    return found


def check_link(check: Checks, page: Path, place: str, target: str) -> None:
    if re.match(r"[a-z][a-z0-9+.-]*:", target):
        return
    name, _, anchor = target.partition("#")
    aim = Path(os.path.normpath(page.parent / name)) if name else page
    inside = not name.startswith("/") and ".." not in aim.parts
    if not check(inside and aim.exists(), place, f"dead link {target}"):
        return
    if anchor and aim.suffix == ".md":
        check(anchor in anchors(aim), place, f"no heading for {target}")


def check_links(check: Checks, page: Path) -> None:
    for number, line in prose(text_of(page)):
        plain = re.sub(r"(`+).*?\1", "``", line)
        targets = re.findall(r"\]\(\s*<?([^)>\s]+)>?(?:\s+\"[^\"]*\")?\s*\)", plain)
        targets += re.findall(r"^\s*\[[^\]]+\]:\s*(\S+)", plain)
        for target in targets:
            check_link(check, page, f"{page}:{number}", target)


def check_paths(check: Checks, page: Path) -> None:
    """Each path in backticks is one of the repository or of a crate."""
    for number, line in prose(text_of(page)):
        for word in ticked(line):
            parts = Path(word).parts
            if not re.fullmatch(r"[\w./*-]+/[\w./*-]*", word) or parts[0] not in PLACES or "NAME" in word:
                continue
            if "out" in parts or ".." in word or len(parts) == 1:
                continue
            bases = (Path(), page.parent, *Path("crates").glob("*"))
            here = any(next(base.glob(word.rstrip("/")), None) for base in bases)
            check(here, f"{page}:{number}", f"no file {word}")
