"""What the program must answer: its status and each byte of its text.

The rules leave nothing open of the text but for want of memory and for faults of reading and writing: which rows are printed
in which order, each number of each tally, and each line of a status follow from docs/ and examples/README.md. Left open, and
not compared, is only what is no answer:
- status 10, which may come anywhere
- statuses 4 and 5, which need an input or an output that fails
- status 12, which needs 4294967295 packets of one connection
- how long it takes, which writes the text comes in, and which memory it needs
"""
from __future__ import annotations

from dataclasses import dataclass
from typing import Callable

from . import built, documents, plans, reading, rows, words
from .session import Answered, Fault, Session
from .slices import cut

LONGEST = 67108864
DEFAULTS = {"packet": 8192, "receive_depth": 4, "send_depth": 2, "retries": 20, "flow": "loss"}


class Refused(Exception):
    """The status and the line of a refusal."""


def document_of(source: bytes, every_plan: bool = built.EVERY_PLAN) -> dict:
    """The document that these bytes are, whose plans are sound."""
    if len(source) > LONGEST:
        raise Refused(11, "error 11 input too long\n")
    try:
        document = reading.value_of(source)
    except reading.NoJson:
        raise Refused(2, "error 2 document code 1 path $\n") from None
    fault = documents.first_fault(document)
    if fault is not None:
        raise Refused(2, f"error 2 document code {fault.code} path {fault.path}\n")
    for number, plan in enumerate(document["queries"], 1):
        broken = plans.first_broken(plan, document)
        if broken is not None:
            raise Refused(3, f"error 3 plan query {number} {broken}\n")
    if not every_plan and not all(plans.runs(plan) for plan in document["queries"]):
        raise Refused(15, "error 15 not built\n")
    return document


@dataclass
class Ran:
    """What the queries of a document came to: those that are over, and the fault that ended the next one, if one did."""

    over: list[Answered]
    fault: Fault | None = None


def parts_in(document: dict) -> Callable[[plans.Node, int], list]:
    """The rows that a scan has at a segment."""
    tables, segments = plans.tables_of(document), document["segments"]
    parts = {name: rows.parts_of(table, segments) for name, table in tables.items()}
    return lambda scan, at: parts[scan.value["table"]][at]


def run(document: dict, asked: words.Run, every_plan: bool = built.EVERY_PLAN) -> Ran:
    settings = {**DEFAULTS, **document.get("settings", {})}
    session = Session(document["segments"], settings, asked.fate, asked.rounds, every_plan)
    rows_of = parts_in(document)
    ran = Ran([])
    for number, plan in enumerate(document["queries"], 1):
        try:
            ran.over.append(session.run(number, cut(*plans.seen_of(plan, document), document["segments"]), rows_of))
        except Fault as fault:
            ran.fault = fault
            break
    return ran


def lines_of(number: int, answered: Answered, tally: bool) -> list[str]:
    """The lines of a query that is over."""
    lines = [rows.line_of(row) for row in answered.rows]
    for it in answered.tallies if tally else []:
        end = "whole" if it.whole else "stopped"
        ends = f"{it.motion} {it.sender} {it.receiver}"
        lines.append(f"# {number} {ends} {len(it.sent)} {len(it.taken)} {it.packets} {it.resent} {end}")
    return lines


def answer(given: list[str], source: bytes, every_plan: bool = built.EVERY_PLAN) -> tuple[int, bytes]:
    """The status with which these words and this input are answered, and the text."""
    asked = words.asked(given, every_plan)
    if isinstance(asked, str):
        return 1, asked.encode("utf-8")
    try:
        document = document_of(source, every_plan)
    except Refused as refused:
        return refused.args[0], refused.args[1].encode("utf-8")
    ran = run(document, asked, every_plan)
    lines = [line for number, it in enumerate(ran.over, 1) for line in lines_of(number, it, asked.tally)]
    if ran.fault is not None:
        lines.append(ran.fault.line)
    return ran.fault.status if ran.fault else 0, "".join(f"{line}\n" for line in lines).encode("utf-8")
