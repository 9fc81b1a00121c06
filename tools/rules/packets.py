"""The bytes of headers, rows and chunks, read by the rules of docs/FORMATS.md."""
from __future__ import annotations

import struct
from dataclasses import dataclass

FIELDS = ["motion", "src pid", "src port", "dst pid", "dst port", "session", "query", "recv slice"]
FIELDS += ["send slice", "src content", "dst content", "crc", "flags", "length", "seq", "extra"]
SIGNED = ("src content", "dst content")
KINDS = {0: "Rows", 8: "LastRows", 128: "Query", 3: "Ack", 5: "Stop", 17: "Nak", 33: "Disorder", 65: "Duplicate"}


class Fault(Exception):
    """What is wrong with the bytes: a word, or a place."""


# ---- headers


def words_of(datagram: bytes) -> dict[str, int]:
    """The sixteen words of 32 bits, by name; the bytes of one that isn't whole aren't among them."""
    words = dict(zip(FIELDS, struct.unpack_from(f">{min(16, len(datagram) // 4)}I", datagram)))
    return {name: word - 2**32 if name in SIGNED and word >= 2**31 else word for name, word in words.items()}


def fits(kind: str, size: int) -> bool:
    """Whether a datagram of this kind may have a body of so many bytes."""
    if kind in ("Rows", "LastRows"):
        return size >= 4
    return size > 0 and size % 4 == 0 if kind == "Disorder" else size == 0


def read_datagram(datagram: bytes) -> tuple[str, bytes]:
    """Its kind and its body, or the first fault."""
    if len(datagram) < 64:
        raise Fault("Short")
    words = words_of(datagram)
    if words["crc"] != 0:
        raise Fault("Crc")
    if words["flags"] not in KINDS:
        raise Fault("Flags")
    kind = KINDS[words["flags"]]
    if words["length"] != len(datagram) or not fits(kind, len(datagram) - 64):
        raise Fault("Len")
    return kind, datagram[64:]


# ---- rows


@dataclass(frozen=True)
class Wide:
    """A sum of 128 bits, which is another value than the int of its size."""

    number: int


def read_value(bytes_: bytes, at: int) -> tuple[object, int]:
    """The value that begins there, and the place after it."""
    sizes = {0: 0, 1: 8, 2: 4, 3: 16}
    tag = bytes_[at] if at < len(bytes_) else None
    end = at + 1 + sizes.get(tag, 0)
    if tag not in sizes or end > len(bytes_):
        raise Fault(at)
    number = int.from_bytes(bytes_[at + 1 : end], "big", signed=tag != 2)
    if tag != 2:
        return {0: None, 1: number, 3: Wide(number)}[tag], end
    if end + number > len(bytes_):
        raise Fault(at)
    try:
        return bytes_[end : end + number].decode("utf-8"), end + number
    except UnicodeDecodeError:
        raise Fault(at) from None


def read_row(bytes_: bytes) -> list:
    """The row that the whole of these bytes spells, or the place of the first fault."""
    if len(bytes_) < 2:
        raise Fault(0)
    at = 2
    row = []
    for _ in range(int.from_bytes(bytes_[:2], "big")):
        value, at = read_value(bytes_, at)
        row.append(value)
    if at < len(bytes_):
        raise Fault(at)
    return row


def spelled(value: object) -> bytes:
    if value is None:
        return b"\x00"
    if isinstance(value, Wide):
        return b"\x03" + value.number.to_bytes(16, "big", signed=True)
    if isinstance(value, int):
        return b"\x01" + value.to_bytes(8, "big", signed=True)
    text = value.encode("utf-8")
    return b"\x02" + len(text).to_bytes(4, "big") + text


def spelled_row(row: list) -> bytes:
    return len(row).to_bytes(2, "big") + b"".join(map(spelled, row))


# ---- chunks

WHOLE, START, MIDDLE, END, END_OF_STREAM, EMPTY = range(6)


class Joiner:
    """The rows of payloads that are fed one by one."""

    def __init__(self) -> None:
        self.rows: list[list] = []
        self.rest: bytes | None = None  # of a row that has begun
        self.ended = False

    def feed(self, payload: bytes) -> None:
        at = number = 0
        while at < len(payload):
            size = int.from_bytes(payload[at : at + 2], "big")
            kind = int.from_bytes(payload[at + 2 : at + 4], "big")
            body = payload[at + 4 : at + 4 + size]
            allowed = kind <= EMPTY and (size == 0) == (kind >= END_OF_STREAM)
            if at + 4 + size > len(payload) or not allowed or not self._goes_on(kind, body):
                raise Fault(number)
            at += 4 + size
            number += 1

    def _goes_on(self, kind: int, body: bytes) -> bool:
        """Takes the chunk in, and tells whether a stream goes on so."""
        if self.ended or (kind in (WHOLE, START, END_OF_STREAM) and self.rest is not None):
            return False
        if kind in (MIDDLE, END) and self.rest is None:
            return False
        if kind == END_OF_STREAM:
            self.ended = True
        elif kind in (START, MIDDLE):
            self.rest = (self.rest or b"") + body
        elif kind != EMPTY:
            try:
                self.rows.append(read_row((self.rest or b"") + body))
            except Fault:
                return False
            self.rest = None
        return True


def cut(row: list, packet: int) -> list[bytes]:
    """The chunks into which a row is cut, heads and all."""
    spelling, room = spelled_row(row), packet - 72
    bodies = [spelling[at : at + room] for at in range(0, len(spelling), room)]
    kinds = [WHOLE] if len(bodies) == 1 else [START, *[MIDDLE] * (len(bodies) - 2), END]
    return [len(body).to_bytes(2, "big") + kind.to_bytes(2, "big") + body for kind, body in zip(kinds, bodies)]
