"""The words of the command (docs/FORMATS.md, "Words")."""
from __future__ import annotations

import re
from dataclasses import dataclass

from . import built
from .network import Fate

DROPS = 64
GREATEST_DROP = 4294967295
ROUNDS = 100000
RANGES = {"seed": (0, 2**64 - 1), "loss": (0, 900), "repeat": (0, 900), "delay": (0, 64), "rounds": (1, 10000000)}


class Usage(Exception):
    """The place, from 1, of the first word that isn't allowed there."""


@dataclass
class Run:
    """What the words of `sim` ask for."""

    fate: Fate
    rounds: int = ROUNDS
    tally: bool = True


def number_of(text: str, least: int, most: int) -> int | None:
    """Digits without a sign and without a 0 before them."""
    if not re.fullmatch(r"0|[1-9][0-9]*", text, re.A) or len(text) > 20:
        return None
    return int(text) if least <= int(text) <= most else None


def drops_of(text: str) -> list[int] | None:
    numbers = [number_of(part, 1, GREATEST_DROP) for part in text.split(",")]
    if None in numbers or len(numbers) > DROPS:
        return None
    return numbers if all(a < b for a, b in zip(numbers, numbers[1:])) else None


def mute_of(text: str) -> tuple[int, int] | None:
    ends = [-1 if part == "-1" else number_of(part, 0, 63) for part in text.split(":")]
    return None if len(ends) != 2 or None in ends else (ends[0], ends[1])


def value_of(name: str, text: str) -> object:
    """What a word says, or None if it isn't allowed."""
    if name in RANGES:
        return number_of(text, *RANGES[name])
    if name == "drop":
        return drops_of(text)
    if name == "mute":
        return mute_of(text)
    return {"yes": True, "no": False}.get(text) if name == "tally" else None


def run_of(words: list[str]) -> Run:
    """What all words ask for."""
    if words[:1] != ["sim"]:
        raise Usage(1)
    found: dict[str, object] = {}
    for place, word in enumerate(words[1:], 2):
        name, _, text = word.partition("=")
        value = value_of(name, text)
        if value is None or name in found:
            raise Usage(place)
        found[name] = value
    rounds, tally = found.pop("rounds", ROUNDS), found.pop("tally", True)
    found = {"drops" if name == "drop" else name: value for name, value in found.items()}
    return Run(Fate(**found), rounds, tally)


def asked(words: list[str], every_plan: bool = built.EVERY_PLAN) -> Run | str:
    """What the words ask for, or the line that refuses them."""
    try:
        run = run_of(words)
    except Usage as usage:
        return f"error 1 usage word {usage.args[0]}\n" if every_plan else "error 1 usage\n"
    if not every_plan and (len(words) > 2 or any(not word.startswith("drop=") for word in words[1:])):
        return "error 1 usage\n"
    return run
