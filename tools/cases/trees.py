"""Plans: any trees, those that aim at a rule, and deep sound ones."""
from __future__ import annotations

import random

from rules import plans
from rules.documents import COMPARISONS

from .tables import any_document


def place(rng: random.Random) -> int:
    return rng.choice([0, 0, 0, 1, 1, 2, 3, 5])


def places(rng: random.Random, least: int) -> list[int]:
    return [place(rng) for _ in range(rng.randrange(least, 4))]


def any_operand(rng: random.Random) -> object:
    return rng.choice([{"col": place(rng)}, {"col": place(rng)}, 5, "a", None])


def any_predicate(rng: random.Random, depth: int) -> list:
    how = rng.randrange(6) if depth else rng.randrange(4)
    if how < 3:
        return [rng.choice(COMPARISONS), any_operand(rng), any_operand(rng)]
    if how == 3:
        return ["null", any_operand(rng)]
    if how == 4:
        return ["not", any_predicate(rng, depth - 1)]
    return [rng.choice(["and", "or"])] + [any_predicate(rng, depth - 1) for _ in range(rng.randrange(1, 4))]


def any_keys(rng: random.Random) -> list:
    return [[place(rng), rng.choice(["asc", "asc", "desc"])] for _ in range(rng.randrange(1, 3))]


def any_calls(rng: random.Random) -> list:
    return [rng.choice([["count"], [rng.choice(["count", "sum", "min", "max"]), place(rng)]]) for _ in range(rng.randrange(0, 3))]


def any_agg(rng: random.Random, tables: list, depth: int) -> dict:
    child = any_node(rng, tables, depth - 1)
    group = places(rng, 0)
    if rng.random() < 0.4:
        return {"op": "agg", "stage": "single", "group": group, "calls": any_calls(rng), "child": child}
    partial = {"op": "agg", "stage": "partial", "group": group, "calls": any_calls(rng), "child": child}
    if rng.random() < 0.2:
        return partial
    if rng.random() < 0.7:
        partial = rng.choice(
            [{"op": "gather", "child": partial}, {"op": "redistribute", "keys": list(range(len(group))) or [0], "child": partial}]
        )
    return {"op": "agg", "stage": "final", "child": partial}


def any_node(rng: random.Random, tables: list, depth: int) -> dict:
    op = rng.choice(["filter", "project", "limit", "sort", "join", "agg", "gather", "redistribute", "broadcast", "scan"])
    if depth == 0 or op == "scan":
        return {"op": "scan", "table": rng.choice(tables)["name"] if rng.random() < 0.97 else "none"}
    if op == "join":
        left, right = any_node(rng, tables, depth - 1), any_node(rng, tables, depth - 1)
        return {"op": op, "left": left, "right": right, "on": [[place(rng), place(rng)] for _ in range(rng.randrange(0, 3))]}
    if op == "agg":
        return any_agg(rng, tables, depth)
    if op == "gather" and rng.random() < 0.4:
        keys = any_keys(rng)
        child = any_node(rng, tables, depth - 1)
        below = {"op": "sort", "keys": keys, "child": child} if rng.random() < 0.8 else child
        return {"op": op, "order": keys[: rng.randrange(1, 3)], "child": below}
    own = {
        "filter": lambda: {"where": any_predicate(rng, 2)},
        "project": lambda: {"columns": places(rng, 1)},
        "limit": lambda: {"count": rng.randrange(0, 4)},
        "sort": lambda: {"keys": any_keys(rng)},
        "redistribute": lambda: {"keys": places(rng, 1)},
    }
    return {"op": op, **own.get(op, dict)(), "child": any_node(rng, tables, depth - 1)}


def any_plan(rng: random.Random, tables: list, depth: int) -> dict:
    plan = any_node(rng, tables, depth)
    if rng.random() < 0.8:
        plan = {"op": "gather", "child": plan}
        if rng.random() < 0.15:
            plan["order"] = any_keys(rng)
    if rng.random() < 0.2:
        plan = {"op": "limit", "count": rng.randrange(0, 3), "child": plan}
    return plan


def planned(rng: random.Random) -> dict:
    """A document whose plans are any trees, most of them gathered at their top."""
    document = any_document(rng, [0, 1, 3])
    document["queries"] = [any_plan(rng, document["tables"], rng.randrange(0, 5)) for _ in range(rng.randrange(1, 4))]
    if rng.random() < 0.05:
        document["segments"] = 64
        document.setdefault("settings", {})["packet"] = 65507
    return document


# ---- plans that aim at a rule


def repeated(rng: random.Random, name: str, motions: int) -> dict:
    """A gather over so many redistributes and broadcasts of a scan."""
    plan = {"op": "scan", "table": name}
    for _ in range(motions):
        plan = {"op": "redistribute", "keys": [0], "child": plan}
    return {"op": "gather", "child": plan}


def near_the_limits(rng: random.Random, rule: int) -> dict:
    """A document that has just about as much ring room, or as many workers, as rules 11 and 12 allow."""
    document = any_document(rng, [0, 1])
    document["segments"] = rng.choice([63, 64, 64])
    name = document["tables"][0]["name"]
    document["tables"][0].pop("replicated", None)
    if rule == 12:
        document["settings"] = {"packet": 128, "receive_depth": 1, "send_depth": 1}
        document["queries"] = [repeated(rng, name, rng.choice([13, 14, 14, 15, 30]))]
    else:
        connections = document["segments"] ** 2 + document["segments"]
        depths = rng.choice([8, 9, 17, 200])
        packet = min(65507, 2147483648 // connections // depths + rng.choice([0, 1, 1, 2]))
        document["settings"] = {"packet": packet, "receive_depth": depths - 3, "send_depth": 2}
        document["queries"] = [repeated(rng, name, 1)]
    return document


def aiming(rng: random.Random, rule: int) -> dict:
    """A document whose first broken rule is this one, if one of 500 tries finds it."""
    document = any_document(rng, [0, 1])
    for _ in range(500):
        if rule > 10:
            document = near_the_limits(rng, rule)
        else:
            document["queries"] = [any_plan(rng, document["tables"], rng.randrange(0, 5))]
        broken = plans.first_broken(document["queries"][0], document)
        if broken is not None and broken.split()[3] == str(rule):
            break
    return document


# ---- deep sound plans


def step(rng: random.Random, tables: list, plan: dict) -> dict:
    """This plan with one or more nodes above it."""
    how = rng.randrange(9)
    if how == 0:
        return {"op": "filter", "where": any_predicate(rng, 1), "child": plan}
    if how == 1:
        return {"op": "project", "columns": places(rng, 1), "child": plan}
    if how == 2:
        return {"op": "sort", "keys": any_keys(rng), "child": plan}
    if how == 3:
        return {"op": "redistribute", "keys": places(rng, 1), "child": plan}
    if how == 4:
        return {"op": "broadcast", "child": plan}
    if how == 5:
        other = {"op": "scan", "table": rng.choice(tables)["name"]}
        other = {"op": rng.choice(["broadcast", "filter"]), "where": ["null", {"col": 0}], "child": other} if rng.random() < 0.7 else other
        if other["op"] == "broadcast":
            del other["where"]
        pair = [plan, other] if rng.random() < 0.6 else [other, plan]
        return {"op": "join", "left": pair[0], "right": pair[1], "on": [[0, 0]] * rng.randrange(0, 2)}
    if how == 6:
        return {"op": "agg", "stage": "single", "group": places(rng, 0), "calls": any_calls(rng), "child": plan}
    group = places(rng, 1)
    partial = {"op": "agg", "stage": "partial", "group": group, "calls": any_calls(rng), "child": plan}
    moved = {"op": "redistribute", "keys": list(range(len(group))), "child": partial}
    return {"op": "agg", "stage": "final", "child": moved}


def is_sound_below(plan: dict, document: dict) -> bool:
    broken = plans.first_broken(plan, document)
    return broken is None or broken.startswith("node 0 rule 10")


def topped(rng: random.Random, plan: dict) -> dict:
    """A gather over it, in the order of a sort below it or in none, and limits at both sides or at none."""
    top: dict = {"op": "gather", "child": plan}
    if rng.random() < 0.4:
        keys = [[0, rng.choice(["asc", "desc"])]]
        plan = {"op": "sort", "keys": keys, "child": plan}
        top = {"op": "gather", "order": keys, "child": plan}
    if rng.random() < 0.3:
        top["child"] = {"op": "limit", "count": 3, "child": plan}
        top = {"op": "limit", "count": rng.randrange(0, 4), "child": top}
    return top


def deep(rng: random.Random) -> dict:
    """A document with a sound plan of at least six nodes; in one of four a node is broken afterwards."""
    document = any_document(rng, [0, 1, 3])
    plan = {"op": "scan", "table": rng.choice(document["tables"])["name"]}
    for _ in range(100):
        taller = step(rng, document["tables"], plan)
        if plans.size_of(taller) < 30 and is_sound_below(taller, document):
            plan = taller
        if plans.size_of(plan) > rng.randrange(4, 16):
            break
    if rng.random() < 0.25:
        plan = step(rng, document["tables"], plan)
    document["queries"] = [topped(rng, plan)]
    return document
