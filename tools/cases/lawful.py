"""Whether what the rules' model answers is lawful by the meaning of its plans."""
from __future__ import annotations

import json
from collections import Counter
from dataclasses import dataclass

from rules import plans, words
from rules.answer import Ran, parts_in, run
from rules.meaning import Meaning, TooLarge, bag, meaning_of
from rules.session import Answered, Tally
from rules.slices import cut

from . import cover

LOSING = ("loss=", "drop=", "mute=")


@dataclass
class Judged:
    """What isn't lawful in a case, if anything, and what the case covers."""

    flaw: str | None
    covers: Counter[str]


def has_limit(plan: dict) -> bool:
    return plan["op"] == "limit" or any(has_limit(child) for child in plans.children_of(plan))


def flaw_of_tally(meaning: Meaning, it: Tally, is_limited: bool) -> str | None:
    """What isn't as it should be on a connection of a query that is over."""
    if it.taken != it.sent[: len(it.taken)]:
        return "took other rows than were sent"
    if it.whole and len(it.taken) != len(it.sent):
        return "took less than was sent, and is whole"
    if not it.whole and not is_limited:
        return "was stopped, and the plan has no limit"
    motion = meaning.plan.slices[it.motion].motion
    routed = bag(meaning.routed(motion, it.sender, it.receiver))
    if bag(it.sent) - routed:
        return "sent rows that aren't for it"
    return None if is_limited or bag(it.sent) == routed else "sent less than is for it, and the plan has no limit"


def flaw_of_query(meaning: Meaning, answered: Answered, is_limited: bool) -> str | None:
    flaw = meaning.flaw_of_parts() or meaning.flaw_of_answer(answered.rows)
    for it in answered.tallies:
        wrong = flaw_of_tally(meaning, it, is_limited)
        flaw = flaw or (wrong and f"motion {it.motion} from {it.sender} to {it.receiver} {wrong}")
    return flaw


def flaw_of_fault(ran: Ran, given: list[str]) -> str | None:
    """What can't be of the fault that ended a run."""
    if ran.fault is None:
        return None
    losing = any(word.startswith(LOSING) for word in given)
    if ran.fault.status == 8 and losing or ran.fault.status == 9 and any(word.startswith("rounds=") for word in given):
        return None
    return f"status {ran.fault.status}"


def judged(document: dict, given: list[str]) -> Judged:
    """Runs the queries of a document, and looks whether what comes is lawful."""
    ran = run(document, words.asked(given, True), True)
    flaw = flaw_of_fault(ran, given)
    tables, rows_of = plans.tables_of(document), parts_in(document)
    covers = Counter([f"status {ran.fault.status if ran.fault else 0}"])
    for number, (plan, answered) in enumerate(zip(document["queries"], ran.over), 1):
        meaning = meaning_of(cut(*plans.seen_of(plan, document), document["segments"]), tables, rows_of)
        try:
            wrong = flaw_of_query(meaning, answered, has_limit(plan))
        except TooLarge:
            covers["too many rows to judge"] += 1
            continue
        covers += covered(plan, answered)
        flaw = flaw or (wrong and f"query {number}: {wrong}; its plan is {json.dumps(plan)}")
    return Judged(flaw, covers)


def covered(plan: dict, answered: Answered) -> Counter[str]:
    found = Counter(cover.kinds_in(plan))
    found["no rows" if not answered.rows else "rows"] += 1
    found["more than 100 rows"] += len(answered.rows) > 100
    found["more than 5 nodes"] += plans.size_of(plan) > 5
    found["a stopped connection"] += any(not it.whole for it in answered.tallies)
    found["more than 3 motions"] += len({it.motion for it in answered.tallies}) > 3
    found["resent"] += any(it.resent for it in answered.tallies)
    return found


LEAST = {  # of 800 cases
    **{f"status {status}": least for status, least in ((0, 400), (8, 30), (9, 10))},
    **{kind: 150 if kind == "limit" else 250 for kind in cover.KINDS},
    "rows": 400,
    "no rows": 200,
    "more than 100 rows": 3,
    "more than 5 nodes": 400,
    "more than 3 motions": 100,
    "a stopped connection": 50,
    "resent": 100,
}


def table_of(found: Counter[str]) -> str:
    return cover.table_of(found, LEAST)


def lacking(found: Counter[str]) -> list[str]:
    return cover.lacking(found, LEAST)
