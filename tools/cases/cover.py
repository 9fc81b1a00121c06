"""What a run's documents cover, counted, and how much of each there must be."""
from __future__ import annotations

from collections import Counter

from rules import built, plans, reading

from .making import Case

LEAST = {
    **{f"rule {rule}": 5 for rule in range(1, 13)},
    **{f"document code {code}": 5 for code in range(1, 8)},
    **{f"status {status}": 40 for status in (0, 1, 2, 3, 8, 15)},
    "status 11": 1,
    "a plan of more than 5 nodes": 100,
    "a sound plan of more than 5 nodes": 60,
    "column of int": 300,
    "column of text": 200,
    "value null": 100,
    "table by a key": 100,
    "table everywhere": 100,
    "table dealt": 100,
    **{f"setting {name}": 200 for name in ("packet", "receive_depth", "send_depth", "retries", "flow")},
    "setting left out": 100,
    "flow loss": 80,
    "flow capacity": 80,
    "no segment but one": 60,
    "64 segments": 15,
    "several queries": 80,
    "no query": 10,
    "no rows sent": 30,
    "a connection of more than 5 packets": 80,
    "a connection of more than 40 packets": 15,
    "more than 1024 datagrams in a round": 4,
    "resent 1 or 2": 60,
    "resent more than 2": 60,
    "given up in a later query": 8,
    "losses, and nothing resent": 20,
}
KINDS = ["scan", "filter", "project", "sort", "join", "agg single", "agg partial", "agg final", "limit"]
KINDS += ["gather", "gather with an order", "redistribute", "broadcast"]
EVERY = {**{f"that ran: {kind}": 100 for kind in KINDS}, "status 9": 5, "a stopped connection": 40, "by a seed": 100, "muted": 20, "64 segments": 8}
if built.EVERY_PLAN:
    LEAST = {**{name: least for name, least in LEAST.items() if name != "status 15"}, **EVERY}


def kinds_in(plan: dict) -> list[str]:
    """The operator of each node, an aggregate's with its stage, and a gather's with its order."""
    kind = plan["op"] + (f" {plan['stage']}" if plan["op"] == "agg" else "") + (" with an order" if "order" in plan else "")
    return [kind, *(found for child in plans.children_of(plan) for found in kinds_in(child))]


def covered(case: Case, status: int, text: bytes) -> Counter[str]:
    """What a case covers whose right answer is this one."""
    found: Counter[str] = Counter([f"status {status}"])
    if status in (1, 11):
        return found
    if status == 2:
        return found + Counter(["document code " + text.split()[4].decode()])
    document = reading.value_of(case.source)
    if status == 3:
        found["rule " + text.split()[8].decode()] += 1
    large = [plan for plan in document["queries"] if plans.size_of(plan) > 5]
    found["a plan of more than 5 nodes"] += len(large)
    found["a sound plan of more than 5 nodes"] += sum(plans.first_broken(plan, document) is None for plan in large)
    if status == 0:
        found.update(f"that ran: {kind}" for plan in document["queries"] for kind in kinds_in(plan))
        found["a stopped connection"] += b" stopped\n" in text
        found["by a seed"] += any(word.startswith("seed=") for word in case.words)
    found["muted"] += any(word.startswith("mute=") for word in case.words)
    if status in (0, 8):
        found += of_tables(document) + of_answer(case, document, status, text)
    return found


def of_tables(document: dict) -> Counter[str]:
    found: Counter[str] = Counter()
    settings = document.get("settings", {})
    found.update(f"setting {name}" for name in settings)
    found["setting left out"] += len(settings) < 5
    found["flow " + settings.get("flow", "loss")] += 1
    for table in document["tables"]:
        found.update(f"column of {kind}" for _, kind in table["columns"])
        found["value null"] += any(value is None for row in table["rows"] for value in row)
        placing = "by a key" if "key" in table else "everywhere" if table.get("replicated") else "dealt"
        found[f"table {placing}"] += 1
    return found


def of_answer(case: Case, document: dict, status: int, text: bytes) -> Counter[str]:
    found: Counter[str] = Counter()
    queries = len(document["queries"])
    tallies = [line.split() for line in text.splitlines() if line.startswith(b"#")]
    resent = [int(tally[8]) for tally in tallies]
    found["no segment but one"] += document["segments"] == 1
    found["64 segments"] += document["segments"] == 64
    found["several queries"] += queries > 1
    found["no query"] += queries == 0
    found["no rows sent"] += any(tally[5] == b"0" for tally in tallies)
    found["a connection of more than 5 packets"] += any(int(tally[7]) > 5 for tally in tallies)
    found["a connection of more than 40 packets"] += any(int(tally[7]) > 40 for tally in tallies)
    deep = document.get("settings", {}).get("receive_depth") == 256
    found["more than 1024 datagrams in a round"] += deep and sum(min(256, int(tally[7])) for tally in tallies) > 1024 and queries == 1
    found["resent 1 or 2"] += any(0 < number < 3 for number in resent)
    found["resent more than 2"] += any(number > 2 for number in resent)
    found["given up in a later query"] += status == 8 and bool(tallies)
    found["losses, and nothing resent"] += len(case.words) > 1 and status == 0 and not any(resent)
    return found


def table_of(found: Counter[str], least: dict[str, int] = LEAST) -> str:
    """The counts in lines of three, each with the least that is wanted."""
    parts = [f"{name}: {found[name]} ({wanted})" for name, wanted in least.items()]
    width = max(map(len, parts)) + 2
    rows = [parts[i : i + 3] for i in range(0, len(parts), 3)]
    return "\n".join("".join(part.ljust(width) for part in row).rstrip() for row in rows)


def lacking(found: Counter[str], least: dict[str, int] = LEAST) -> list[str]:
    return [f"{name}: {found[name]}, and {wanted} are wanted" for name, wanted in least.items() if found[name] < wanted]
