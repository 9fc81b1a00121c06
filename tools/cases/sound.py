"""Sound plans of every operator over random tables, and the words of random networks to run them with."""
from __future__ import annotations

import random
from typing import Callable

from rules import plans
from rules.documents import COMPARISONS
from rules.meaning import TooLarge, meaning_of
from rules.plans import ENTRY, REPLICATED, Node, Seen
from rules.slices import cut

from .tables import TEXTS, any_document, drop_word

MOST = 600  # rows of a node
TOP = Node({"op": "gather"}, -1, [], [])  # so that a plan below it isn't judged as a root


def seen_of(plan: dict, document: dict) -> Seen | None:
    """What is known of a plan that isn't at the root, if it is sound."""
    seen: dict[int, Seen] = {}
    try:
        plans.judge(plans.numbered(plan, [TOP], [0]), plans.tables_of(document), document, seen)
    except plans.Broken:
        return None
    return seen[0]


class Maker:
    """Makes plans over the tables of a document, from the scans upwards."""

    def __init__(self, rng: random.Random, document: dict) -> None:
        self.rng = rng
        self.document = document

    def seen(self, plan: dict) -> Seen:
        seen = seen_of(plan, self.document)
        if seen is None:
            raise LookupError(plan["op"])
        return seen

    def scan(self) -> dict:
        return {"op": "scan", "table": self.rng.choice(self.document["tables"])["name"]}

    def any(self, depth: int) -> dict:
        """A plan that isn't at the dispatcher."""
        plan = self.scan()
        for _ in range(depth):
            steps = [self.filter, self.filter, self.project, self.sort, self.redistribute, self.broadcast, self.joined, self.joined]
            plan = self.rng.choice([*steps, self.aggregated, self.aggregated, self.staged])(plan, depth - 1)
        return plan

    # ---- operators

    def places(self, seen: Seen, least: int, most: int, fit: Callable[[str], bool] = lambda kind: True) -> list[int]:
        among = [place for place, kind in enumerate(seen.kinds) if fit(kind)]
        return [self.rng.choice(among) for _ in range(self.rng.randrange(least, most + 1))] if among else []

    def operand(self, kind: str) -> object:
        if self.rng.random() < 0.1:
            return None
        return self.rng.choice(TEXTS) if kind == "text" else self.rng.choice([0, 1, 2, 5, -1, 255, 2**63 - 1, -(2**63)])

    def predicate(self, seen: Seen, depth: int) -> list:
        how = self.rng.randrange(5 if depth else 3)
        place = self.rng.randrange(len(seen.kinds)) if seen.kinds else None
        if place is None:
            return ["null", None]
        if how == 0:
            return ["null", {"col": place}]
        if how < 3:
            same = self.places(seen, 1, 1, lambda kind: kind == seen.kinds[place])
            other = {"col": same[0]} if self.rng.random() < 0.2 else self.operand(seen.kinds[place])
            sides = [{"col": place}, other] if self.rng.random() < 0.8 else [other, {"col": place}]
            return [self.rng.choice(COMPARISONS), *sides]
        if how == 3:
            return ["not", self.predicate(seen, depth - 1)]
        return [self.rng.choice(["and", "or"]), *(self.predicate(seen, depth - 1) for _ in range(self.rng.randrange(1, 4)))]

    def filter(self, plan: dict, _: int) -> dict:
        return {"op": "filter", "where": self.predicate(self.seen(plan), 2), "child": plan}

    def project(self, plan: dict, _: int) -> dict:
        seen = self.seen(plan)
        columns = self.places(seen, 1, 5) if self.rng.random() < 0.4 else self.rng.sample(range(len(seen.kinds)), len(seen.kinds))
        return {"op": "project", "columns": columns, "child": plan}

    def keys(self, seen: Seen) -> list:
        return [[place, self.rng.choice(["asc", "desc"])] for place in self.places(seen, 1, 2)]

    def sort(self, plan: dict, _: int) -> dict:
        keys = self.keys(self.seen(plan))
        return {"op": "sort", "keys": keys, "child": plan} if keys else plan

    def redistribute(self, plan: dict, _: int) -> dict:
        keys = self.places(self.seen(plan), 1, 2)
        return {"op": "redistribute", "keys": keys, "child": plan} if keys else plan

    def broadcast(self, plan: dict, _: int) -> dict:
        return {"op": "broadcast", "child": plan}

    def joined(self, plan: dict, depth: int) -> dict:
        """A join of it with another plan, either side, by one of the ways in which loci meet."""
        other = self.any(min(depth, 1)) if self.rng.random() < 0.4 else self.scan()
        left, right = (plan, other) if self.rng.random() < 0.5 else (other, plan)
        a, b = self.seen(left), self.seen(right)
        pairs = [[i, j] for i, x in enumerate(a.kinds) for j, y in enumerate(b.kinds) if x == y]
        on = self.rng.sample(pairs, min(len(pairs), self.rng.choice([0, 1, 1, 1, 2])))
        if on and self.rng.random() < 0.6:
            x, y = self.rng.choice(on)
            left = left if a.locus == (x,) else {"op": "redistribute", "keys": [x], "child": left}
            right = right if b.locus == (y,) else {"op": "redistribute", "keys": [y], "child": right}
        elif a.locus != REPLICATED and b.locus != REPLICATED:
            if self.rng.random() < 0.5:
                left = {"op": "broadcast", "child": left}
            else:
                right = {"op": "broadcast", "child": right}
        return {"op": "join", "left": left, "right": right, "on": on}

    def calls(self, seen: Seen) -> list:
        calls: list = []
        for _ in range(self.rng.randrange(0, 4)):
            word = self.rng.choice(["count", "sum", "sum", "min", "max"])
            place = self.places(seen, 1, 1, lambda kind: word != "sum" or kind == "int")
            calls.append([word, *place] if place else ["count"])
            if word == "count" and self.rng.random() < 0.5:
                calls[-1] = ["count"]
        return calls

    def aggregated(self, plan: dict, _: int) -> dict:
        """A single aggregate, over rows that are redistributed by its group if they must be."""
        seen = self.seen(plan)
        group = self.places(seen, 0 if seen.locus in (REPLICATED, ENTRY) else 1, 2)
        together = seen.locus in (REPLICATED, ENTRY) or isinstance(seen.locus, tuple) and set(seen.locus) <= set(group)
        if not together:
            if not group:
                return plan
            plan = {"op": "redistribute", "keys": self.rng.sample(group, 1), "child": plan}
        return {"op": "agg", "stage": "single", "group": group, "calls": self.calls(seen), "child": plan}

    def staged(self, plan: dict, _: int) -> dict:
        """An aggregate in two stages, with a redistribute between them."""
        seen = self.seen(plan)
        group = self.places(seen, 1, 2)
        if not group:
            return plan
        partial = {"op": "agg", "stage": "partial", "group": group, "calls": self.calls(seen), "child": plan}
        keys = self.rng.sample(range(len(group)), self.rng.randrange(1, len(group) + 1))
        moved = {"op": "redistribute", "keys": keys, "child": partial}
        if seen.locus == REPLICATED and self.rng.random() < 0.3:
            moved = partial
        return {"op": "agg", "stage": "final", "child": moved}

    # ---- at the dispatcher

    def gathered(self, plan: dict) -> dict:
        how = self.rng.randrange(6)
        seen = self.seen(plan)
        if how == 0:
            stage = {"stage": "partial", "group": self.places(seen, 0, 2), "calls": self.calls(seen)}
            return {"op": "agg", "stage": "final", "child": {"op": "gather", "child": {"op": "agg", **stage, "child": plan}}}
        keys = self.keys(seen)
        if how < 3 and keys:
            top = {"op": "sort", "keys": keys, "child": plan}
            if self.rng.random() < 0.3:
                top = {"op": "project", "columns": list(range(len(seen.kinds))), "child": top}
            return {"op": "gather", "order": keys[: self.rng.randrange(1, len(keys) + 1)], "child": top}
        return {"op": "gather", "child": plan}

    def topped(self, depth: int) -> dict:
        """A plan with its root: limits at both sides of a gather, or operators over it."""
        plan = self.any(depth)
        if self.rng.random() < 0.15 and self.seen(plan).locus != REPLICATED:
            plan = self.gathered({"op": "limit", "count": self.rng.choice([1, 3, 20]), "child": plan})
            return {"op": "limit", "count": self.rng.choice([0, 1]), "child": plan}
        plan = self.gathered(plan)
        for _ in range(self.rng.choice([0, 0, 0, 1, 2])):
            plan = self.rng.choice([self.filter, self.project, self.sort, self.aggregated, self.met])(plan, 0)
        if self.rng.random() < 0.25:
            plan = {"op": "limit", "count": self.rng.choice([0, 1, 2, 5, 30]), "child": plan}
        return plan

    def met(self, plan: dict, _: int) -> dict:
        """A join with another plan at the dispatcher."""
        other = self.gathered(self.any(1))
        a, b = self.seen(plan), self.seen(other)
        pairs = [[i, j] for i, x in enumerate(a.kinds) for j, y in enumerate(b.kinds) if x == y]
        return {"op": "join", "left": plan, "right": other, "on": self.rng.sample(pairs, min(len(pairs), 1))}


def is_large(plan: dict, document: dict) -> bool:
    """Whether a node has so many rows that the plan isn't worth its time."""
    segments = document["segments"]
    meaning = meaning_of(cut(*plans.seen_of(plan, document), segments), plans.tables_of(document), lambda scan, at: [], MOST)
    try:
        meaning.whole(meaning.plan.root)
    except TooLarge:
        return True
    return False


def plan_of(rng: random.Random, document: dict) -> dict:
    """A sound plan."""
    maker = Maker(rng, document)
    while True:
        try:
            plan = maker.topped(rng.choice([0, 1, 1, 2, 2, 3, 4]))
        except LookupError:
            continue
        if plans.size_of(plan) < 40 and plans.first_broken(plan, document) is None and not is_large(plan, document):
            return plan


def fate_words(rng: random.Random) -> list[str]:
    """Words of a network: one that loses nothing, what is named, or by a seed."""
    how = rng.randrange(10)
    words = []
    if how < 2:
        words.append(drop_word(rng.sample(range(1, rng.choice([20, 70, 300])), rng.choice([1, 4, 12]))))
    if how == 2:
        words.append(f"mute={rng.choice([-1, 0, 1])}:{rng.choice([-1, 0, 1])}")
    if how > 2 and how < 8:
        words.append(f"seed={rng.choice([0, 1, 7, 2**64 - 1, rng.randrange(10**6)])}")
        for name, most in (("loss", 300), ("repeat", 300), ("delay", 64)):
            if rng.random() < 0.6:
                words.append(f"{name}={rng.choice([1, 20, most // 6, most])}")
    if rng.random() < 0.04:
        words.append(f"rounds={rng.choice([1, 2, 5, 9])}")
    if rng.random() < 0.05:
        words.append(f"tally={rng.choice(['yes', 'no'])}")
    rng.shuffle(words)
    return ["sim", *words]


def planned(rng: random.Random) -> tuple[dict, list[str]]:
    """A document with sound plans of any operators, and the words to run it with."""
    document = any_document(rng, [0, 1, 2, 7, 20, 40])
    document["segments"] = rng.choice([1, 2, 2, 3, 4])
    settings = document.get("settings", {})
    settings["retries"] = min(settings.get("retries", 20), 20)  # with 1000 a muted connection isn't given up for 64000 rounds
    document["queries"] = [plan_of(rng, document) for _ in range(rng.choice([1, 1, 1, 2, 3]))]
    return document, fate_words(rng)


def case_of(seed: int, number: int) -> tuple[dict, list[str]]:
    """The case of a number, the same for the same seed and number."""
    return planned(random.Random(seed * 1000003 + number))
