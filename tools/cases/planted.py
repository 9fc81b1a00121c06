"""Faults planted in the program's answers. Each takes what the program was given and answered, and gives a wrong answer.

A planted program is a script that runs the built one and hands its answer through one of these functions, so that tools/compare
meets it as it would meet a program with that fault.
"""
from __future__ import annotations

import os
import subprocess
import sys
import time
from dataclasses import dataclass
from typing import Callable

from rules import built


@dataclass
class Given:
    """The words, the input, and the status and lines of the right answer."""

    words: list[str]
    source: bytes
    status: int
    lines: list[bytes]


def tallies(given: Given, place: int, change: Callable[[int], int]) -> None:
    """Changes the number at this place of each tally line."""
    for at, line in enumerate(given.lines):
        parts = line.split(b" ")
        if parts[0] == b"#":
            parts[place] = b"%d" % change(int(parts[place]))
            given.lines[at] = b" ".join(parts)


def last_line(given: Given, status: int, place: int, change: Callable[[bytes], bytes]) -> None:
    """Changes a word of the line of a status."""
    if given.status == status:
        parts = given.lines[-1].split(b" ")
        if len(parts) > place:
            parts[place] = change(parts[place])
            given.lines[-1] = b" ".join(parts)


def more(number: bytes) -> bytes:
    return b"%d" % (int(number) + 1)


def exchange_rows(given: Given) -> None:
    for at in range(len(given.lines) - 1):
        a, b = given.lines[at : at + 2]
        if a.startswith(b"[") and b.startswith(b"[") and a != b:
            given.lines[at : at + 2] = [b, a]
            return


def repeat_a_row(given: Given) -> None:
    if given.lines and given.lines[0].startswith(b"["):
        given.lines.insert(0, given.lines[0])


def exchange_tallies(given: Given) -> None:
    found = [at for at, line in enumerate(given.lines) if line.startswith(b"# 1 ")]
    if len(found) > 1:
        given.lines[found[0]], given.lines[found[1]] = given.lines[found[1]], given.lines[found[0]]


def say_stopped(given: Given) -> None:
    given.lines = [line.removesuffix(b"whole") + b"stopped" if line.startswith(b"# 2 ") else line for line in given.lines]


def escape_texts(given: Given) -> None:
    given.lines = [line.decode().encode("ascii", "backslashreplace") if line.startswith(b"[") else line for line in given.lines]


def drop_the_line(given: Given) -> None:
    if given.status == 3:
        given.lines.pop()


def succeed(given: Given) -> None:
    if given.status == 8:
        given.status = 0


def forget_the_path(given: Given) -> None:
    if given.status == 2:
        given.lines[-1] = given.lines[-1][: given.lines[-1].rindex(b"[")] if b"[" in given.lines[-1] else given.lines[-1]


def complain(given: Given) -> None:
    if given.status == 0 and len(given.lines) > 50:
        sys.stderr.write("note: many rows\n")


def die(given: Given) -> None:
    if given.status == 8:
        sys.stdout.buffer.write(b"".join(line + b"\n" for line in given.lines))
        sys.stdout.flush()
        os.kill(os.getpid(), 9)


def hang(given: Given) -> None:
    if b'"segments": 8' in given.source and given.status == 0:
        time.sleep(1000)


def write_on(given: Given) -> None:
    while given.status == 8:
        sys.stdout.buffer.write(b"[1]\n" * 10000)


CHANGES: dict[str, Callable[[Given], None]] = {
    "resent is always 0": lambda given: tallies(given, 8, lambda number: 0),
    "resent is one more above 2": lambda given: tallies(given, 8, lambda number: number + (number > 2)),
    "status 8 with another packet": lambda given: last_line(given, 8, 12, more),
    "a line on standard error": complain,
    "two rows in exchanged places": exchange_rows,
    "status 8 with another number of tries": lambda given: last_line(given, 8, 14, more),
    "status 8 with another query": lambda given: last_line(given, 8, 4, more),
    "status 8 told as 0": succeed,
    "a packet more above 5": lambda given: tallies(given, 7, lambda number: number + (number > 5)),
    "a row taken less": lambda given: tallies(given, 6, lambda number: number - (number > 20)),
    "a row twice": repeat_a_row,
    "two tallies in exchanged places": exchange_tallies,
    "a later query told as stopped": say_stopped,
    "letters that are no ASCII are escaped": escape_texts,
    "status 3 without its line": drop_the_line,
    "rule 9 told as 8": lambda given: last_line(given, 3, 8, lambda rule: b"8" if rule == b"9" else rule),
    "a worker more with rule 12": lambda given: last_line(given, 3, 10, lambda told: told if b"workers" not in given.lines[-1] else more(told)),
    "the path of a fault without its last step": forget_the_path,
    "killed after its whole answer": die,
    "an answer that never ends": write_on,
    "no answer at all": hang,
}

WORDS: dict[str, Callable[[list[str]], list[str]]] = {
    "a number that begins with 0 is taken": lambda words: [word.replace("=0", "=") if word.startswith("drop=01") else word for word in words],
    "a second word is taken": lambda words: words[:2],
    "losses after send 50 are forgotten": lambda words: words[:1] + [fewer(word) for word in words[1:] if fewer(word) != "drop="],
}


def has_op(given: Given, mark: bytes) -> bool:
    return given.status == 0 and mark in given.source


def turn_rows_round(given: Given) -> None:
    """Of documents with an ordered gather and one query."""
    rows = [line for line in given.lines if line.startswith(b"[")]
    if has_op(given, b'"order"') and not any(line.startswith(b"# 2") for line in given.lines):
        given.lines[: len(rows)] = reversed(rows)


def leave_a_row_out(given: Given) -> None:
    if has_op(given, b'"limit"') and given.lines and given.lines[0].startswith(b"["):
        given.lines.pop(0)


def change_rows(given: Given, mark: bytes, old: bytes, new: bytes) -> None:
    if has_op(given, mark):
        given.lines = [line.replace(old, new) if line.startswith(b"[") else line for line in given.lines]


def without(words: list[str], name: str) -> list[str]:
    return [word for word in words if not word.startswith(name)]


def once(words: list[str]) -> list[str]:
    """The words without those whose name stood before."""
    return [word for at, word in enumerate(words) if word.split("=")[0] not in [it.split("=")[0] for it in words[:at]]]


if built.EVERY_PLAN:  # a program that runs less has no such answers
    CHANGES |= {
        "a gather in the order from its end": turn_rows_round,
        "a limit with a row less": leave_a_row_out,
        "a sum over nothing told as 0": lambda given: change_rows(given, b'"sum"', b"null", b"0"),
        "a count told with one more digit": lambda given: change_rows(given, b'["count"]', b"]", b"0]"),
        "the connections of motion 2 told as those of 3": lambda given: tallies(given, 2, lambda number: 3 if number == 2 else number),
        "a round less with status 9": lambda given: last_line(given, 9, 6, lambda number: b"%d" % (int(number) - 1)),
        "status 1 at the next word": lambda given: last_line(given, 1, 4, more),
    }
    WORDS |= {f"{name} is forgotten": lambda words, name=name: without(words, name) for name in ("seed", "loss", "repeat", "delay", "mute", "tally")}
    WORDS |= {"a word twice is taken": once, "more rounds than are allowed": lambda words: without(words, "rounds")}


def fewer(word: str) -> str:
    """The word without the numbers above 50."""
    if not word.startswith("drop=") or not word[5:].replace(",", "").isdecimal():
        return word
    return "drop=" + ",".join(number for number in word[5:].split(",") if number and int(number) <= 50)


def act(name: str, program: str) -> None:
    """Runs the built program, and answers with the fault of this name."""
    source = sys.stdin.buffer.read()
    words = WORDS.get(name, list)(sys.argv[1:])
    run = subprocess.run([program, *words], input=source, capture_output=True)
    given = Given(words, source, run.returncode, run.stdout.split(b"\n")[:-1])
    if name in CHANGES:
        CHANGES[name](given)
    sys.stdout.buffer.write(b"".join(line + b"\n" for line in given.lines))
    sys.stdout.flush()
    sys.exit(given.status)


SCRIPT = """#!/usr/bin/env python3
import sys
sys.dont_write_bytecode = True
sys.path.insert(0, {tools!r})
from cases.planted import act
act({name!r}, {built!r})
"""
