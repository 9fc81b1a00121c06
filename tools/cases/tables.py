"""Documents that run: settings, tables, gathers over scans, and the sends that are lost."""
from __future__ import annotations

import random

TEXTS = ["", "a", "é", '"\\/', "\t\n\r\b\f\x00\x1f\x7f", "𝄞", "\u2028", "ab" * 40]


def any_value(rng: random.Random, kind: str) -> object:
    if rng.random() < 0.1:
        return None
    if kind == "text":
        return rng.choice(TEXTS) * rng.choice([1, 1, 1, 9])
    return rng.choice([0, 1, -1, 255, 2**63 - 1, -(2**63), rng.randrange(-1000, 1000)])


def any_table(rng: random.Random, name: str, counts: list[int]) -> dict:
    kinds = [rng.choice(["int", "text"]) for _ in range(rng.randrange(0, 4))]
    columns = [["id", "int"]] + [[f"c{i}", kind] for i, kind in enumerate(kinds)]
    lines = [[i] + [any_value(rng, kind) for kind in kinds] for i in range(rng.choice(counts))]
    rng.shuffle(lines)
    if rng.random() < 0.2:
        lines = [[value if value != line[0] else rng.choice([1, None]) for value in line] for line in lines]
    table = {"name": name, "columns": columns, "rows": lines}
    how = rng.randrange(3)
    if how == 0:
        table["key"] = rng.sample(range(len(columns)), rng.randrange(1, len(columns) + 1))
    elif how == 1:
        table["replicated"] = True
    elif rng.random() < 0.2:
        table["replicated"] = False
    return table


def any_settings(rng: random.Random) -> dict:
    packet = rng.choice([128, 129, 200, 1024, 8192, 65507])
    depths = [1, 2, 4, 9] if packet > 8192 else [1, 2, 4, 9, 256]  # rings of all connections take their room at once
    settings = {
        "packet": packet,
        "receive_depth": rng.choice(depths),
        "send_depth": rng.choice(depths),
        "retries": rng.choice([1, 3, 20, 1000]),
        "flow": rng.choice(["loss", "capacity"]),
    }
    return {name: value for name, value in settings.items() if rng.random() < 0.85}


def any_document(rng: random.Random, counts: list[int]) -> dict:
    document = {"session": rng.choice([1, 7, 2**31 - 1]), "segments": rng.choice([1, 2, 3, 8])}
    if rng.random() < 0.9:
        document["settings"] = any_settings(rng)
    return {**document, "tables": [any_table(rng, f"t{i}", counts) for i in range(rng.randrange(1, 5))]}


def gather(name: str) -> dict:
    return {"op": "gather", "child": {"op": "scan", "table": name}}


def drop_word(numbers: list[int]) -> str:
    return "drop=" + ",".join(map(str, sorted(numbers)))


def running(rng: random.Random) -> tuple[dict, list[str]]:
    """A document that runs, and the words to run it with; more than half of them lose up to 64 sends."""
    document = any_document(rng, [0, 1, 2, 7, 40, 150])
    names = [rng.choice(document["tables"])["name"] for _ in range(rng.choice([0, 1, 1, 2, 3, 4]))]
    document["queries"] = [gather(name) for name in names]
    if rng.random() < 0.4:
        return document, ["sim"]
    return document, ["sim", drop_word(rng.sample(range(1, rng.choice([70, 150, 400])), rng.choice([1, 4, 12, 40, 64])))]


def lossy(rng: random.Random) -> tuple[dict, list[str]]:
    """Few rows in small packets, few tries, and most of the sends lost: many are given up, and windows and waiting times move."""
    document = any_document(rng, [3, 12, 40])
    document["segments"] = rng.choice([1, 1, 2, 3])
    settings = document.setdefault("settings", {})
    settings["packet"] = rng.choice([128, 128, 160, 300])
    settings["retries"] = rng.choice([1, 2, 3, 4, 5, 20])
    document["queries"] = [gather(rng.choice(document["tables"])["name"]) for _ in range(rng.choice([1, 1, 2, 3]))]
    first = rng.choice([1, 1, 2, 5, 9, 20])
    among = range(first, first + rng.choice([8, 20, 70, 100]))
    return document, ["sim", drop_word(rng.sample(among, min(len(among), rng.choice([3, 7, 16, 30, 64]))))]


def flood(rng: random.Random) -> tuple[dict, list[str]]:
    """One row a packet, and as many on their way at once as there are: more datagrams than a node receives in a round."""
    rows = [[i, "a" * 40] for i in range(rng.choice([1100, 1500]))]
    settings = {"packet": 128, "receive_depth": 256, "send_depth": 256, "flow": "capacity"}
    table = {"name": "t0", "columns": [["id", "int"], ["c0", "text"]], "rows": rows}
    document = {"session": 1, "segments": rng.choice([6, 8, 11]), "settings": settings, "tables": [table], "queries": [gather("t0")]}
    losses = [drop_word(rng.sample(range(1, 4000), 64))] if rng.random() < 0.5 else []
    return document, ["sim", *losses]


def crowded(rng: random.Random) -> tuple[dict, list[str]]:
    """Many rows or many segments: more calls than one round has, and rings that fill."""
    if rng.random() < 0.1:
        return flood(rng)
    document = any_document(rng, [300, 500, 900])
    document["tables"] = document["tables"][:2]
    document["segments"] = rng.choice([1, 1, 2, 5, 64])
    settings = document.setdefault("settings", {})
    settings["packet"] = rng.choice([128, 512, 8192])
    document["queries"] = [gather(table["name"]) for table in document["tables"]]
    losses = [drop_word(rng.sample(range(1, 900), rng.choice([5, 64])))] if rng.random() < 0.6 else []
    return document, ["sim", *losses]
