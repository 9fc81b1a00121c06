"""Bytes as a value of JSON, as docs/FORMATS.md has it: 127 levels, and no whole number but of 64 bits."""
from __future__ import annotations

import json
import math
import re

DEPTH = 127


class NoJson(Exception):
    """The bytes are no value of JSON."""


def real(text: str) -> float:
    number = float(text)
    if math.isinf(number):
        raise NoJson(text)
    return number


def whole(text: str) -> object:
    """An integer if it has 64 bits, with or without a sign; else a float, as `-0` is."""
    if len(text) < 25 and text != "-0" and -(2**63) <= int(text) < 2**64:
        return int(text)
    return real(text)


def no_constant(text: str) -> None:
    raise NoJson(text)


def depth_of(text: str) -> int:
    depth = deepest = 0
    for mark in re.findall(r'"(?:[^"\\]|\\.)*"|[\[\]{}]', text, re.S):
        if mark in ("[", "{"):
            depth += 1
            deepest = max(deepest, depth)
        elif mark in ("]", "}"):
            depth -= 1
    return deepest


def has_lone_surrogate(value: object) -> bool:
    if isinstance(value, str):
        return any(0xD800 <= ord(mark) < 0xE000 for mark in value)
    if isinstance(value, dict):
        return any(has_lone_surrogate(part) for pair in value.items() for part in pair)
    return isinstance(value, list) and any(has_lone_surrogate(part) for part in value)


def value_of(source: bytes) -> object:
    """The value that these bytes are."""
    try:
        text = source.strip(b" \t\n\r").decode("utf-8")
        if depth_of(text) > DEPTH:
            raise NoJson("too deep")
        value = json.loads(text, parse_int=whole, parse_float=real, parse_constant=no_constant)
    except (ValueError, RecursionError) as fault:
        raise NoJson(str(fault)) from None
    if "\\u" in text and has_lone_surrogate(value):
        raise NoJson("half of a pair")
    return value
