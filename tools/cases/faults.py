"""Documents with a fault: bytes that are no JSON, and values of JSON with something wrong in them."""
from __future__ import annotations

import copy
import json
import random

from .tables import running
from .trees import planned

ODD = [None, True, False, 0, 1, -1, 2, 64, 65, 256, 257, 65535, 65536, 2**31, 2**63, 2**64 - 1, 2**64, -(2**63) - 1, 1.5]
ODD += ["", "a", "loss", "int", "scan", "count", "=", "asc", "x" * 65, [], [0], [[0, "asc"]], {}, {"col": 0}, {"op": "scan"}]


def bytes_of(document: object) -> bytes:
    return json.dumps(document, ensure_ascii=False).encode("utf-8")


# ---- bytes that are no JSON, and some that just are

MENDED = [b"-0", b"1.0", b"1e2", b"0e1", b"1e999", b"01", b"+1", b".5", b"1.", b"0x10", b"NaN", b"Infinity", b"-", b"'a'", b"True", b"nul"]
MENDED += [b'"\\ud834\\udd1e"', b'"\\ud834"', b'"\\udd1e"', b'"\\ud834\\u0061"', b'"\\x41"', b'"\x00"', b'"\x7f"', b'"\t"', b'"\xc3"', b'"\xed\xa0\x80"', b'"a']
MENDED += [b"[1,]", b"[,1]", b"[1 2]", b'{"a":1,}', b"{a:1}", b'{"a"}', b'{"a":1,"a":2}', b"/* */1", b"1//", b"\xa01", b"\xef\xbb\xbf1", b"123456789012345678901234567890"]
MENDED += [b"9" * 400, *(b"[" * depth + b"]" * depth for depth in (125, 126, 127, 128, 200))]
MENDED += [b"[" * depth + b"1" + b"]" * depth for depth in (126, 127)]


def no_json(rng: random.Random) -> bytes:
    """The bytes of a document with something put in the place of a value, cut, repeated, or with bytes before or after it."""
    source = bytes_of(running(rng)[0])
    how = rng.randrange(6)
    if how == 0:
        return source[: rng.randrange(len(source))]
    if how == 1:
        return source + rng.choice([b"}", b" 1", b"\x00", b"\xff", b" ", b"\n\t\r ", b",", b"\x0b"])
    if how == 2:
        return rng.choice([b"\xef\xbb\xbf", b"\x00", b" ", b"\xff\xfe", b"\n", b"\xc2\xa0"]) + source
    if how == 3:
        at = rng.randrange(len(source))
        return source[:at] + bytes([rng.choice([0, 10, 31, 34, 44, 58, 91, 92, 93, 123, 125, 128, 255])]) + source[at + 1 :]
    own = b'"session": '
    rest = source.index(b",", source.index(own))
    return source[: source.index(own) + len(own)] + rng.choice(MENDED) + source[rest:]


# ---- values with a fault


def spots(value: object, found: list[tuple]) -> list[tuple]:
    """Each object or array of a value with each of its places."""
    if isinstance(value, (dict, list)):
        for at in value if isinstance(value, dict) else range(len(value)):
            found.append((value, at))
            spots(value[at], found)
    return found


def spoil(rng: random.Random, document: dict) -> None:
    """Changes one place in it."""
    held, at = rng.choice(spots(document, []))
    how = rng.randrange(6)
    if how == 0:
        del held[at]
    elif how == 1 and isinstance(held, dict):
        held[rng.choice(["a", "z", "opp", "Name", "é", "", "a\nb"])] = held.pop(at) if rng.random() < 0.5 else rng.choice(ODD)
    elif how == 2 and isinstance(held, list):
        held.insert(at, copy.deepcopy(rng.choice(held)))
    else:
        held[at] = copy.deepcopy(rng.choice(ODD))


def spoiled(rng: random.Random) -> dict:
    document = planned(rng) if rng.random() < 0.6 else running(rng)[0]
    for _ in range(rng.randrange(1, 4)):
        if document:
            spoil(rng, document)
    return document


def narrow(plan: dict, most: int) -> dict:
    """A plan of so many nodes."""
    for _ in range(most - 1):
        plan = {"op": "filter", "where": ["null", {"col": 0}], "child": plan}
    return plan


def put_unknown(rng: random.Random, document: dict) -> None:
    objects = [held for held, _ in spots(document, []) if isinstance(held, dict)]
    rng.choice(objects)[rng.choice(["zz", "A", "é", "", "opp"])] = rng.choice(ODD)


def drop_member(rng: random.Random, document: dict) -> None:
    held, at = rng.choice([(held, at) for held, at in spots(document, []) if isinstance(held, dict)])
    del held[at]


def put_other_kind(rng: random.Random, document: dict) -> None:
    held, at = rng.choice(spots(document, []))
    others = [value for value in ODD if type(value) is not type(held[at])]
    held[at] = copy.deepcopy(rng.choice(others))


def put_out_of_range(rng: random.Random, document: dict) -> None:
    how = rng.randrange(4)
    if how == 0:
        scan = {"op": "scan", "table": "t0"}
        document["queries"] = [narrow(scan, rng.choice([64, 65, 66]))]
    elif how == 1:
        many = ["and"] + [["null", 1]] * rng.choice([127, 128, 129])
        document["queries"] = [{"op": "filter", "where": many, "child": {"op": "scan", "table": "t0"}}]
    elif how == 2:
        document[rng.choice(["session", "segments"])] = rng.choice([0, -1, 65, 2**31, 2**64 - 1, -(2**63)])
    else:
        numbers = [(held, at) for held, at in spots(document, []) if type(held[at]) is int]
        held, at = rng.choice(numbers)
        held[at] = rng.choice([-1, 0, 257, 1001, 65508, 65536, 2**63, 2**64 - 1])


def repeat_name(rng: random.Random, document: dict) -> None:
    table = rng.choice(document["tables"])
    if rng.random() < 0.5:
        table["columns"].append([rng.choice(table["columns"])[0], "int"])
    else:
        document["tables"].insert(rng.randrange(len(document["tables"]) + 1), {**copy.deepcopy(table), "rows": []})


def turn_width(rng: random.Random, document: dict) -> None:
    rows = rng.choice(document["tables"])["rows"]
    rows.append([1] * rng.choice([0, 1, 2, 5]))


CHANGES = {2: put_unknown, 3: drop_member, 4: put_other_kind, 5: put_out_of_range, 6: repeat_name, 7: turn_width}


def faulty(rng: random.Random, code: int) -> bytes:
    """The bytes of a document that is to have a fault of this code; often it has."""
    if code == 1:
        return no_json(rng)
    document = planned(rng) if rng.random() < 0.6 else running(rng)[0]
    CHANGES[code](rng, document)
    if rng.random() < 0.2:
        spoil(rng, document)
    return bytes_of(document)
