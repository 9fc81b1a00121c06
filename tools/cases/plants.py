"""Faults planted in copies of the repository: in pages, examples, vectors, code, the tools and the gate.

Each is its name, the file that is changed, how, and the command that has to find it, with a word that it has to say.
"""
from __future__ import annotations

import re
from dataclasses import dataclass
from typing import Callable


@dataclass
class Plant:
    name: str
    file: str
    change: Callable[[str], str | None]  # None: the file is removed
    command: list[str]
    says: str


def swap(old: str, new: str) -> Callable[[str], str]:
    """Puts new in the place of the first old. There has to be one."""

    def change(text: str) -> str:
        if not re.search(old, text):
            raise LookupError(old)
        return re.sub(old, new, text, count=1)

    return change


def gone(text: str) -> None:
    return None


def longer(text: str) -> str:
    return text + "// one line more\n" * 400


PLANTS = [
    Plant("a clause of another crate", "docs/THEOREMS.md", swap(r"\| `ic_sendring` \| `kept`", "| `ic_recvring` | `kept`"), ["check", "claims"], "ic_recvring"),
    Plant("a clause of another function", "docs/THEOREMS.md", swap("`spells` of `spell`", "`spells` of `read_row`"), ["check", "claims"], "spells"),
    Plant("an edit of another crate", "docs/THEOREMS.md", swap("`takes-segment-64`", "`keeps-one-in-flight`"), ["check", "claims"], "keeps-one-in-flight"),
    Plant("an edit that isn't there", "docs/THEOREMS.md", swap("`takes-segment-64`", "`takes-segment-65`"), ["check", "claims"], "takes-segment-65"),
    Plant("a clause of a README that isn't there", "crates/ic_window/README.md", swap(r"\| `(\w+)", r"| `\1_not"), ["check", "claims"], "_not"),
    Plant("a definition that isn't there", "docs/DEFINITIONS.md", swap("`AreChecked`", "`AreUnchecked`"), ["check", "definitions"], "AreUnchecked"),
    Plant("a definition in another file", "crates/ic_base/specs/Settings.antt", swap("record AreChecked ", "record AreTried "), ["check", "definitions"], "AreChecked"),
    Plant("a README without a heading", "crates/ic_window/README.md", swap(r"\*\*Tested only\*\*", "Tested"), ["check", "limits"], "Tested only"),
    Plant("a crate without a README", "crates/ic_row/README.md", gone, ["check", "limits"], "ic_row"),
    Plant("a file that is too long", "crates/ic_window/src/lib.rt", longer, ["check", "limits"], "at most"),
    Plant("a limit that isn't checked", "CONTRIBUTING.md", swap("a function's body 60", "a function's body 30"), ["check", "limits"], "limits"),
    Plant("a dead link", "docs/PLANS.md", swap(r"\n\n", "\n\n[here](THERE.md)\n\n"), ["check", "links"], "THERE.md"),
    Plant("a link to no heading", "docs/PLANS.md", swap(r"\n\n", "\n\n[here](PROTOCOL.md#no-such-heading)\n\n"), ["check", "links"], "no-such-heading"),
    Plant("a command on a file that isn't there", "examples/01-gather.md", swap(r"< examples/01-gather.json", "< examples/00-gather.json"), ["check", "links"], "00-gather"),
    Plant("an example that expects another tally", "examples/02-lost-first-packet.out", swap(r" (\d+) whole", r" 9 whole"), ["check", "examples"], "02-lost"),
    Plant("an example with another status", "examples/15-given-up.status", swap("8", "9"), ["check", "examples"], "15-given-up"),
    Plant("a page that shows another output", "examples/01-gather.md", swap(r"\n\[10\]\n\[12\]", "\n[12]\n[10]"), ["check", "examples"], "01-gather"),
    Plant("an example without a page", "examples/03-lost-acknowledgement.md", gone, ["check", "examples"], "03-lost"),
    Plant("a window vector with another number", "vectors/window.txt", swap("window 742", "window 743"), ["vectors"], "after-a-loss"),
    Plant("an expiry vector in another order", "vectors/expiry.txt", swap("0:2 0:3 1:1 2:1", "0:2 0:3 2:1 1:1"), ["vectors"], "by-connection"),
    Plant("a header vector with another byte", "vectors/header.txt", swap("00000062", "00000063"), ["vectors"], "last-rows"),
    Plant("a row vector with another fault", "vectors/row.txt", swap("= fault 12", "= fault 13"), ["vectors"], "cut-second-text"),
    Plant("a file of vectors without one", "vectors/chunk.txt", lambda text: "", ["vectors"], "no vector"),
    Plant("no document to compare", "README.md", swap("", ""), ["compare", "--documents", "0"], "no document"),
    Plant("documents without plans that break a rule", "tools/cases/making.py", swap('"runs", "lossy", "rule"', '"runs", "lossy", "runs"'), ["compare", "--cover"], "rule 12"),
]
