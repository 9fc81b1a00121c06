"""Examples: their files, and that what they expect is what the rules say and what the built program answers."""
from __future__ import annotations

import re
from pathlib import Path

from rules.answer import answer

from . import program
from .checks import Checks
from .pages import blocks, text_of


def words_of(document: Path) -> list[str]:
    given = document.with_suffix(".args")
    return text_of(given).splitlines() if given.exists() else []


def status_of(document: Path) -> int:
    given = document.with_suffix(".status")
    line = text_of(given).strip() if given.exists() else "0"
    return int(line) if line.isdigit() else 0


def check_files(check: Checks, document: Path) -> None:
    for suffix in (".args", ".out", ".md"):
        check(document.with_suffix(suffix).exists(), document, f"has no {suffix} beside it")
    given = document.with_suffix(".status")
    right = re.fullmatch(r"[1-9]\d{0,2}\n", text_of(given)) if given.exists() else True
    check(right, given, "isn't one line with a status from 1 on")
    page, wanted = document.with_suffix(".md"), document.with_suffix(".out")
    if page.exists() and wanted.exists():
        check_page(check, page, " ".join(["./icq", *words_of(document), "<", str(document)]), text_of(wanted), status_of(document))


def check_page(check: Checks, page: Path, command: str, output: str, status: int) -> None:
    text = text_of(page)
    shown = ["\n".join(lines) for _, lines in blocks(text)]
    check(command in shown, page, f"doesn't show its command in a block of its own: {command}")
    check(output.rstrip("\n") in shown, page, "doesn't show its output in a block of its own")
    check(re.search(rf"[Ss]tatus {status}\b", text), page, f"doesn't say that the status is {status}")


def check_rules(check: Checks, document: Path) -> None:
    wanted = (status_of(document), document.with_suffix(".out").read_bytes())
    right = answer(words_of(document), document.read_bytes())
    if not check(wanted == right, document, f"expects status {wanted[0]} and this text, and by the rules it is {right[0]} and that:"):
        show(("expected", wanted[1]), ("by rules", right[1]))


def check_program(check: Checks, document: Path, built: Path) -> None:
    wanted = document.with_suffix(".out").read_bytes()
    status = status_of(document)
    got = program.ask(built, words_of(document), document.read_bytes(), len(wanted))
    if not check(got.stopped is None, document, f"the program {got.stopped}"):
        return
    check(got.error == b"", document, f"the program wrote to standard error: {got.error[:80]!r}")
    check(got.status == status, document, f"the program ended with status {got.status}, and {status} is expected")
    if not check(got.output == wanted, document, "the program wrote something else than is expected:"):
        show(("expected", wanted), ("got", got.output))


def show(*texts: tuple[str, bytes]) -> None:
    for name, text in texts:
        for line in text.decode("utf-8", "replace").splitlines(True)[:12]:
            print(f"    {name:9}{line!r}")


def check_index(check: Checks, documents: list[Path]) -> None:
    index = Path("examples/README.md")
    listed = text_of(index) if index.exists() else ""
    for document in documents:
        page = document.with_suffix(".md").name
        check(f"({page})" in listed, index, f"has no link to {page}")


def check_examples(check: Checks) -> None:
    """Checks all. Without a program that can be tried, that is one failure."""
    documents = sorted(Path("examples").glob("*.json"))
    check(documents, "examples", "there is no document NAME.json: an empty list shows nothing")
    for path in sorted(Path("examples").glob("*.*")):
        if path.name != "README.md":
            check(path.with_suffix(".json").exists(), path, "belongs to no document NAME.json")
    check_index(check, documents)
    unfit = program.unfit()
    check(unfit is None, "the built program", unfit or "")
    for document in documents:
        check_files(check, document)
        if document.with_suffix(".out").exists():
            check_rules(check, document)
            if unfit is None:
                check_program(check, document, program.PROGRAM)
    print(f"{len(documents)} examples")
