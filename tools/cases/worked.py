"""Worked cases of every plan: documents with words and the whole answer, each number followed by hand from the rules."""
from __future__ import annotations

import json
from dataclasses import dataclass


@dataclass
class Worked:
    name: str
    document: dict
    words: list[str]
    status: int
    lines: list[str]

    def source(self) -> bytes:
        return json.dumps(self.document, ensure_ascii=False).encode("utf-8")


def scan(name: str = "t") -> dict:
    return {"op": "scan", "table": name}


def over(op: str, child: dict, **members: object) -> dict:
    return {"op": op, **members, "child": child}


def table(name: str, kinds: str, rows: list, **members: object) -> dict:
    """A table whose columns have these kinds, a letter each: i for int, t for text."""
    columns = [[chr(97 + at), "int" if kind == "i" else "text"] for at, kind in enumerate(kinds)]
    return {"name": name, "columns": columns, **members, "rows": rows}


def document(plan: dict | list, tables: list[dict], segments: int = 2, **settings: object) -> dict:
    plans = plan if isinstance(plan, list) else [plan]
    return {"session": 7, "segments": segments, "settings": settings, "tables": tables, "queries": plans}


def four(plan: dict | list, rows: list | None = None, **settings: object) -> dict:
    """A document over one table of one int column, of four rows if no others are given."""
    return document(plan, [table("t", "i", [[10], [11], [12], [13]] if rows is None else rows)], **settings)


def gathered(child: dict, **members: object) -> dict:
    return over("gather", child, **members)


def aggregated(group: list, calls: list, child: dict, stage: str = "single") -> dict:
    return over("agg", child, stage=stage, group=group, calls=calls)


def final(child: dict) -> dict:
    return over("agg", child, stage="final")


def limited(count: int, child: dict) -> dict:
    return over("limit", child, count=count)


def long_text(length: int) -> dict:
    return document(gathered(scan()), [table("t", "t", [["x" * length]])], 1, packet=128)


MANY = [[i] for i in range(2000)]
SORTED = [[2, "x"], [None, "y"], [1, "z"], [2, "w"]]
TIED = [[2, "b"], [1, "a"], [2, "a"], [None, "c"], [1, "c"]]
L = table("l", "it", [[1, "p"], [None, "q"], [1, "r"], [2, "s"]])
R = table("r", "ii", [[1, 100], [1, 101], [None, 102], [3, 103]], key=[0])
BY_ONE = [[0, "asc"]]
JOINED = {"op": "join", "left": over("redistribute", scan("l"), keys=[0]), "right": scan("r"), "on": [[0, 0]]}
CROSSED = {"op": "join", "left": scan("u"), "right": over("broadcast", scan("v")), "on": []}
SUMMED = final(gathered(aggregated([], [["sum", 0], ["count"]], scan(), "partial")))
BOTH_MOVED = {
    "op": "join",
    "left": over("redistribute", scan("x"), keys=[0]),
    "right": over("redistribute", scan("y"), keys=[0]),
    "on": [[0, 0]],
}
TOP_TWO = limited(2, gathered(limited(2, over("sort", scan(), keys=[[0, "desc"]])), order=[[0, "desc"]]))
GROUPED = [[1, "b"], [None, "a"], [2, None], [1, "a"], [None, None], [1, None]]
IN_STAGES = aggregated([0], [["count"], ["count", 1], ["min", 1], ["max", 1], ["sum", 0]], scan(), "partial")
COUNTED = aggregated([0], [["count"]], gathered(scan()))
AT_THE_TOP = over("project", over("filter", COUNTED, where=[">", {"col": 1}, 1]), columns=[1, 0, 1])
BOTH = ["# 1 1 0 -1 2 2 1 0 whole", "# 1 1 1 -1 2 2 1 0 whole"]
FOUR = ["[10]", "[12]", "[11]", "[13]"]
EQUAL = ["not", ["=", {"col": 0}, 1]]
LESS = ["or", ["null", {"col": 0}], ["<", {"col": 0}, 2]]


def kept(where: list) -> dict:
    return four(gathered(over("filter", scan(), where=where)), [[1], [None], [3]])


WORKED = [
    Worked("two segments, two rows each", four(gathered(scan())), ["sim"], 0, FOUR + BOTH),
    Worked("no rows", four(gathered(scan()), []), ["sim"], 0, ["# 1 1 0 -1 0 0 1 0 whole", "# 1 1 1 -1 0 0 1 0 whole"]),
    Worked(
        "both first copies are lost",
        four(gathered(scan())),
        ["sim", "drop=1,2"],
        0,
        FOUR + ["# 1 1 0 -1 2 2 1 1 whole", "# 1 1 1 -1 2 2 1 1 whole"],
    ),
    Worked("a row in 358 packets", long_text(20000), ["sim"], 0, ['["' + "x" * 20000 + '"]', "# 1 1 0 -1 1 1 358 0 whole"]),
    Worked("a row that fills a packet", long_text(49), ["sim"], 0, ['["' + "x" * 49 + '"]', "# 1 1 0 -1 1 1 1 0 whole"]),
    Worked("a row one byte longer than a packet", long_text(50), ["sim"], 0, ['["' + "x" * 50 + '"]', "# 1 1 0 -1 1 1 2 0 whole"]),
    Worked(
        "the answer to a take is lost, and a status query asks for it",
        document(gathered(scan()), [table("t", "t", [["x" * 49], ["y" * 49]])], 1, packet=128, receive_depth=1),
        ["sim", "drop=3"],
        0,
        ['["' + "x" * 49 + '"]', '["' + "y" * 49 + '"]', "# 1 1 0 -1 2 2 2 0 whole"],
    ),
    Worked(
        "a limit that stops the senders",
        four(limited(2, gathered(scan())), MANY),
        ["sim"],
        0,
        ["[0]", "[2]", "# 1 1 0 -1 1000 541 2 0 stopped", "# 1 1 1 -1 1000 0 2 0 stopped"],
    ),
    Worked(
        "a limit to no rows",
        four(limited(0, gathered(scan()))),
        ["sim"],
        0,
        ["# 1 1 0 -1 2 0 1 0 stopped", "# 1 1 1 -1 2 0 1 0 stopped"],
    ),
    Worked(
        "a gather that merges two sorted segments",
        document(gathered(over("sort", scan(), keys=BY_ONE), order=BY_ONE), [table("t", "it", SORTED)]),
        ["sim"],
        0,
        ['[1,"z"]', '[2,"x"]', '[2,"w"]', '[null,"y"]'] + BOTH,
    ),
    Worked(
        "a join of rows that are redistributed with rows by their key",
        document(gathered(JOINED), [L, R]),
        ["sim"],
        0,
        ['[1,"p",1,100]', '[1,"p",1,101]', '[1,"r",1,100]', '[1,"r",1,101]']
        + ["# 1 1 0 -1 0 0 1 0 whole", "# 1 1 1 -1 4 4 1 0 whole", "# 1 2 0 0 0 0 1 0 whole"]
        + ["# 1 2 0 1 2 2 1 0 whole", "# 1 2 1 0 1 1 1 0 whole", "# 1 2 1 1 1 1 1 0 whole"],
    ),
    Worked(
        "a join of each row with each row that is broadcast",
        document(gathered(CROSSED), [table("u", "i", [[1], [2], [3]]), table("v", "i", [[7], [8]])], 3),
        ["sim", "tally=no"],
        0,
        ["[1,7]", "[1,8]", "[2,7]", "[2,8]", "[3,7]", "[3,8]"],
    ),
    Worked(
        "a sum in two stages that needs more than 64 bits",
        document(SUMMED, [table("t", "i", [[2**63 - 1]] * 4)], 4),
        ["sim", "tally=no"],
        0,
        ["[36893488147419103228,4]"],
    ),
    Worked("a sum in two stages over nothing", document(SUMMED, [table("t", "i", [])], 4), ["sim", "tally=no"], 0, ["[null,0]"]),
    Worked(
        "a replicated table is sent by one segment",
        document(gathered(scan()), [table("t", "i", [[1], [2]], replicated=True)]),
        ["sim"],
        0,
        ["[1]", "[2]", "# 1 1 0 -1 2 2 1 0 whole"],
    ),
    Worked(
        "a connection that is muted is given up",
        four(gathered(scan()), retries=3),
        ["sim", "mute=0:-1"],
        8,
        ["error 8 spent query 1 motion 1 from 0 to -1 seq 1 tries 3"],
    ),
    Worked("one round isn't enough", four(gathered(scan())), ["sim", "rounds=1"], 9, ["error 9 unfinished query 1 rounds 1"]),
    Worked("a filter keeps what is true alone", kept(EQUAL), ["sim", "tally=no"], 0, ["[3]"]),
    Worked("a filter that tells null", kept(LESS), ["sim", "tally=no"], 0, ["[1]", "[null]"]),
    Worked("a filter on no column", kept(["=", {"col": 1}, 1]), ["sim"], 3, ["error 3 plan query 1 node 1 rule 2"]),
    Worked("a filter of two kinds", kept(["=", {"col": 0}, "x"]), ["sim"], 3, ["error 3 plan query 1 node 1 rule 3"]),
    Worked(
        "a single aggregate over rows of one group at two segments",
        four(gathered(aggregated([0], [["count"]], scan()))),
        ["sim"],
        3,
        ["error 3 plan query 1 node 1 rule 5"],
    ),
    Worked(
        "a query twice",
        four([gathered(scan()), gathered(scan())]),
        ["sim"],
        0,
        FOUR + BOTH + FOUR + [line.replace("# 1", "# 2") for line in BOTH],
    ),
    Worked("a word out of its range", four(gathered(scan())), ["sim", "loss=901"], 1, ["error 1 usage word 2"]),
    Worked("no words", four(gathered(scan())), [], 1, ["error 1 usage word 1"]),
    Worked("a word twice", four(gathered(scan())), ["sim", "seed=1", "seed=1"], 1, ["error 1 usage word 3"]),
    Worked(
        "rows that are equal in the keys of a sort stay in their order",
        document(gathered(over("sort", scan(), keys=BY_ONE)), [table("t", "it", TIED)], 1),
        ["sim", "tally=no"],
        0,
        ['[1,"a"]', '[1,"c"]', '[2,"b"]', '[2,"a"]', '[null,"c"]'],
    ),
    Worked(
        "null comes last in a sort from the greatest, too",
        document(gathered(over("sort", scan(), keys=[[0, "desc"], [1, "asc"]])), [table("t", "it", TIED)], 1),
        ["sim", "tally=no"],
        0,
        ['[2,"a"]', '[2,"b"]', '[1,"a"]', '[1,"c"]', '[null,"c"]'],
    ),
    Worked(
        # In the first round slice 3 sends before slice 2. Segment 1 has its right side whole long before segment 0.
        "the first send is the last slice's, and is lost",
        document(gathered(BOTH_MOVED), [table("x", "i", [[1], [2], [3]]), table("y", "i", [[1], [2]])]),
        ["sim", "drop=1"],
        0,
        ["[1,1]", "[2,2]", "# 1 1 0 -1 1 1 1 0 whole", "# 1 1 1 -1 1 1 1 0 whole"]
        + ["# 1 2 0 0 0 0 1 0 whole", "# 1 2 0 1 2 2 1 0 whole", "# 1 2 1 0 1 1 1 0 whole", "# 1 2 1 1 0 0 1 0 whole"]
        + ["# 1 3 0 0 0 0 1 1 whole", "# 1 3 0 1 1 1 1 0 whole", "# 1 3 1 0 1 1 1 0 whole", "# 1 3 1 1 0 0 1 0 whole"],
    ),
    Worked(
        # The first packet is full at the 542nd put, in round 3, and is taken in round 4, after the segments' turns.
        "a limit that stops the senders after four rounds of 256 turns",
        four(limited(2, gathered(scan())), [[i] for i in range(4000)]),
        ["sim"],
        0,
        ["[0]", "[2]", "# 1 1 0 -1 1024 541 1 0 stopped", "# 1 1 1 -1 1024 0 1 0 stopped"],
    ),
    Worked(
        # A stop comes in round 1, so the next put is refused. Without it a packet goes out in round 3, and is answered by a stop.
        "the first of two stops is lost",
        four(limited(0, gathered(scan())), [[i] for i in range(4000)]),
        ["sim", "drop=1"],
        0,
        ["# 1 1 0 -1 768 0 1 0 stopped", "# 1 1 1 -1 256 0 0 0 stopped"],
    ),
    Worked("the two greatest rows of all", four(TOP_TWO, [[5], [None], [9], [7], [8], [1]]), ["sim", "tally=no"], 0, ["[9]", "[8]"]),
    Worked(
        # Groups come in the order of their first rows: at segment 0 those of 2, which is there alone, then at 1 those of 1 and null.
        "groups in two stages",
        document(gathered(final(over("redistribute", IN_STAGES, keys=[0]))), [table("t", "it", GROUPED)]),
        ["sim", "tally=no"],
        0,
        ['[2,1,0,null,null,2]', '[1,3,2,"a","b",3]', '[null,2,1,"a","a",null]'],
    ),
    Worked(
        "operators at the dispatcher",
        four(AT_THE_TOP, [[3], [3], [None], [4], [None], [3]]),
        ["sim", "tally=no"],
        0,
        ["[3,3,3]", "[2,null,2]"],
    ),
]
