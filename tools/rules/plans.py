"""The first node of a plan that breaks a rule, and the least rule that it breaks (docs/PLANS.md)."""
from __future__ import annotations

from dataclasses import dataclass

ENTRY, STREWN, REPLICATED = "entry", "strewn", "replicated"  # else a locus is the tuple of its hashed positions
MOTIONS = ("gather", "redistribute", "broadcast")


class Broken(Exception):
    """A rule that is broken at a node, with the number that is told beside it, if one is."""

    def __init__(self, at: int, rule: int, told: str = "") -> None:
        super().__init__(at, rule, told)
        self.line = f"node {at} rule {rule}{told}"


@dataclass
class Seen:
    """What is known of a node once it is sound."""

    kinds: list[str]
    locus: object
    order: list


@dataclass
class Node:
    """A node with its number in preorder and what is above it, the nearest first."""

    value: dict
    number: int
    above: list["Node"]
    children: list["Node"]


def children_of(value: dict) -> list[dict]:
    return [value[name] for name in ("left", "right", "child") if name in value]


def numbered(value: dict, above: list[Node], count: list[int]) -> Node:
    node = Node(value, count[0], above, [])
    count[0] += 1
    node.children = [numbered(child, [node, *above], count) for child in children_of(value)]
    return node


def firsts(positions: list[int], among: list[int]) -> tuple[int, ...] | None:
    """The first places of these positions among others, or None if one is missing."""
    if any(position not in among for position in positions):
        return None
    return tuple(among.index(position) for position in positions)


# ---- expressions


def operands(part: list) -> list:
    return part[1:]


def kind_of(value: object, kinds: list[str]) -> str:
    if isinstance(value, dict):
        return kinds[value["col"]]
    if value is None:
        return "null"
    return "text" if isinstance(value, str) else "number"


def agree(a: str, b: str) -> bool:
    if "null" in (a, b) or a == b:
        return True
    return {a, b} in ({"number", "int"}, {"number", "wide"})


def comparisons(part: list) -> list[list]:
    if part[0] in ("and", "or", "not"):
        return [found for inner in part[1:] for found in comparisons(inner)]
    return [part]


def flaw_of(where: list, kinds: list[str]) -> int | None:
    """The least rule that a predicate breaks."""
    parts = comparisons(where)
    for part in parts:
        if any(isinstance(value, dict) and value["col"] >= len(kinds) for value in operands(part)):
            return 2
    for part in parts:
        if part[0] != "null" and not agree(kind_of(part[1], kinds), kind_of(part[2], kinds)):
            return 3
    return None


# ---- nodes


def partial_below(node: Node) -> Node | None:
    """The partial of a final: its child, or that of the motion below it."""
    child = node.children[0]
    if child.value["op"] in MOTIONS:
        child = child.children[0]
    is_partial = child.value["op"] == "agg" and child.value["stage"] == "partial"
    return child if is_partial else None


def final_above(node: Node) -> bool:
    above = node.above
    if above and above[0].value["op"] in MOTIONS:
        above = above[1:]
    return bool(above) and above[0].value["op"] == "agg" and above[0].value["stage"] == "final"


def joined(left: object, right: object, on: list, width: int) -> object | None:
    """The locus of a join, or None if the loci don't meet."""
    if left == right and left in (ENTRY, REPLICATED):
        return left
    if right == REPLICATED and left != ENTRY:
        return left
    if left == REPLICATED and right != ENTRY:
        return tuple(p + width for p in right) if isinstance(right, tuple) else right
    if isinstance(left, tuple) and isinstance(right, tuple) and len(left) == len(right):
        if all([a, b] in on for a, b in zip(left, right)):
            return left
    return None


def limit_stands(node: Node, locus: object) -> bool:
    if locus == ENTRY:
        return not node.above
    if locus == REPLICATED or not node.above:
        return False
    above = list(node.above)
    while above and above[0].value["op"] == "project":
        above.pop(0)
    if not above or above.pop(0).value["op"] != "gather":
        return False
    while above and above[0].value["op"] == "project":
        above.pop(0)
    return len(above) == 1 and above[0].value["op"] == "limit" and above[0].value["count"] <= node.value["count"]


def grouped(locus: object, group: list[int]) -> object | None:
    """The locus of groups, or None if they aren't together."""
    if locus == STREWN:
        return None
    return firsts(list(locus), group) if isinstance(locus, tuple) else locus


def called(call: list, kinds: list[str]) -> str:
    if call[0] == "count":
        return "int"
    return "wide" if call[0] == "sum" else kinds[call[1]]


def seen_agg(node: Node, child: Seen, broken: set[int]) -> Seen | None:
    value = node.value
    stage = value["stage"]
    if stage == "final":
        partial = partial_below(node)
        group = list(range(len(partial.value["group"]) if partial else len(child.kinds)))
        kinds = list(child.kinds)
        if partial is None:
            broken.add(9)
    else:
        group = value["group"]
        places = [*group, *(p for call in value["calls"] for p in call[1:])]
        if any(place >= len(child.kinds) for place in places):
            broken.add(2)
            return None
        if any(call[0] == "sum" and child.kinds[call[1]] != "int" for call in value["calls"]):
            broken.add(3)
        kinds = [child.kinds[place] for place in group] + [called(call, child.kinds) for call in value["calls"]]
        if stage == "partial" and not final_above(node):
            broken.add(9)
    locus = grouped(child.locus, group)
    if locus is None:
        if stage == "partial":
            locus = STREWN
        else:
            broken.add(5)
    return Seen(kinds, locus, [])


def below_all(places: list[int], width: int) -> bool:
    return all(place < width for place in places)


def look(node: Node, below: list[Seen], tables: dict, broken: set[int]) -> Seen | None:
    """What is known of a node whose children are sound. The rules that it breaks are put among `broken`."""
    value = node.value
    op = value["op"]
    if op == "scan":
        table = tables.get(value["table"])
        if table is None:
            broken.add(1)
            return None
        locus = tuple(table["key"]) if "key" in table else REPLICATED if table.get("replicated") else STREWN
        return Seen([kind for _, kind in table["columns"]], locus, [])
    child = below[0]
    width = len(child.kinds)
    if op == "join":
        return look_join(value, below, broken)
    if op == "agg":
        return seen_agg(node, child, broken)
    if op == "filter":
        flaw = flaw_of(value["where"], child.kinds)
        if flaw is not None:
            broken.add(flaw)
        return child
    if op == "project":
        columns = value["columns"]
        if not below_all(columns, width):
            broken.add(2)
            return None
        locus = child.locus
        if isinstance(locus, tuple):
            locus = firsts(list(locus), columns)
            locus = STREWN if locus is None else locus
        order = []
        for place, way in child.order:
            if place not in columns:
                break
            order.append([columns.index(place), way])
        return Seen([child.kinds[place] for place in columns], locus, order)
    if op == "limit":
        if not limit_stands(node, child.locus):
            broken.add(6)
        return child
    if op == "sort":
        if not below_all([place for place, _ in value["keys"]], width):
            broken.add(2)
        return Seen(child.kinds, child.locus, value["keys"])
    if child.locus == ENTRY:
        broken.add(8)
    if op == "gather":
        order = value.get("order", [])
        if not below_all([place for place, _ in order], width):
            broken.add(2)
        if child.order[: len(order)] != order:
            broken.add(7)
        return Seen(child.kinds, ENTRY, order)
    if op == "redistribute":
        if not below_all(value["keys"], width):
            broken.add(2)
        return Seen(child.kinds, tuple(value["keys"]), [])
    return Seen(child.kinds, REPLICATED, [])


def look_join(value: dict, below: list[Seen], broken: set[int]) -> Seen | None:
    left, right = below
    if not all(a < len(left.kinds) and b < len(right.kinds) for a, b in value["on"]):
        broken.add(2)
    elif any(left.kinds[a] != right.kinds[b] for a, b in value["on"]):
        broken.add(3)
    locus = joined(left.locus, right.locus, value["on"], len(left.kinds))
    if locus is None:
        broken.add(4)
    return Seen(left.kinds + right.kinds, locus, [])


# ---- the whole plan


def judge(node: Node, tables: dict, document: dict, sound: dict[int, Seen]) -> None:
    """Judges what is below and then the node."""
    for child in node.children:
        judge(child, tables, document, sound)
    broken: set[int] = set()
    seen = look(node, [sound[child.number] for child in node.children], tables, broken)
    told = ""
    if not node.above and seen is not None:
        if seen.locus != ENTRY:
            broken.add(10)
        size, workers = room_of(node, document, sound)
        if size > 2147483648:
            broken.add(11)
        if workers > 1024:
            broken.add(12)
        if broken:
            told = {11: f" bytes {size}", 12: f" workers {workers}"}.get(min(broken), "")
    if broken:
        raise Broken(node.number, min(broken), told)
    sound[node.number] = seen


def room_of(root: Node, document: dict, sound: dict[int, Seen]) -> tuple[int, int]:
    """The bytes of all connections' rings, and how many workers there are."""
    segments = document["segments"]
    settings = document.get("settings", {})
    one = settings.get("receive_depth", 4) + settings.get("send_depth", 2) + 1
    one *= settings.get("packet", 8192)
    connections = 0
    workers = 1 + segments + 1

    def walk(node: Node, gang: int) -> None:
        nonlocal connections, workers
        if node.value["op"] in MOTIONS:
            senders = 1 if sound[node.children[0].number].locus == REPLICATED else segments
            connections += senders * gang
            workers += senders
            gang = senders
        for child in node.children:
            walk(child, gang)

    walk(root, 1)
    return connections * one, workers


def tables_of(document: dict) -> dict:
    """The tables by name, of one name the first."""
    tables: dict = {}
    for table in document["tables"]:
        tables.setdefault(table["name"], table)
    return tables


def first_broken(plan: dict, document: dict) -> str | None:
    """`node N rule R` of the first node in postorder that breaks a rule, with what is told beside it."""
    try:
        judge(numbered(plan, [], [0]), tables_of(document), document, {})
    except Broken as broken:
        return broken.line
    return None


def seen_of(plan: dict, document: dict) -> tuple[Node, dict[int, Seen]]:
    """The root of a sound plan, and what is known of each node by its number."""
    seen: dict[int, Seen] = {}
    root = numbered(plan, [], [0])
    judge(root, tables_of(document), document, seen)
    return root, seen


def size_of(plan: dict) -> int:
    """How many nodes it has."""
    return 1 + sum(size_of(child) for child in children_of(plan))


def runs(plan: dict) -> bool:
    """Whether it is a gather without an order over a scan."""
    return plan["op"] == "gather" and "order" not in plan and plan["child"]["op"] == "scan"
