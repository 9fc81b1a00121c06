"""The case of a number: its words and its input."""
from __future__ import annotations

import random
from dataclasses import dataclass

from rules import built

from . import faults, sound, tables, trees, words

KINDS = ["runs", "lossy", "rule", "fault", "deep", "lossy", "runs", "words", "fault", "deep", "crowded", "plans", "runs", "spoiled"]
KINDS += ["every plan"] * 6 if built.EVERY_PLAN else []
RULES = [12, 9, 11, 7, 4, 5, 8, 3, 1, 6, 10, 2]
LONGEST = 67108864


@dataclass
class Case:
    """What the program is given, and which kind of case it is."""

    kind: str
    words: list[str]
    source: bytes


def long_case(number: int) -> Case:
    """As many bytes as are read, blanks and then a document; or one blank more."""
    document, given = tables.running(random.Random(number))
    return Case("long", given, faults.bytes_of(document).rjust(LONGEST + number % 2))


def case_of(seed: int, number: int) -> Case:
    """The same for the same seed and number, whatever was made before."""
    rng = random.Random(seed * 1000003 + number)
    kind, turn = KINDS[number % len(KINDS)], number // len(KINDS)
    if number in (100, 101):
        return long_case(number)
    if kind == "runs":
        document, given = tables.running(rng)
    elif kind == "lossy":
        document, given = tables.lossy(rng)
    elif kind == "crowded":
        document, given = tables.crowded(rng)
    elif kind == "every plan":
        document, given = sound.planned(rng)
    elif kind == "words":
        document, given = tables.running(rng)[0], words.faulty_words(rng, turn)
    elif kind == "rule":
        document, given = trees.aiming(rng, RULES[turn % 12]), ["sim"]
    elif kind == "deep":
        document, given = trees.deep(rng), ["sim"]
    elif kind == "plans":
        document, given = trees.planned(rng), ["sim"]
    elif kind == "spoiled":
        document, given = faults.spoiled(rng), ["sim"]
    else:
        code = 1 + (number % 2 + 2 * turn) % 7
        return Case(kind, ["sim"], faults.faulty(rng, code))
    return Case(kind, given, faults.bytes_of(document))
