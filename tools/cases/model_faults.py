"""Faults planted in the model of tools/rules, in copies of the repository: tools/lawful has to find each.

The first ones break an operator, the next ones a slice or a motion, the last ones a connection or the network. What the program
answers with such a fault, tools/compare would find in the same way.
"""
from __future__ import annotations

from .plants import Plant, swap

FEW = ["lawful", "--plans", "150", "--failures", "1", "--jobs", "1"]


def plant(name: str, file: str, old: str, new: str) -> Plant:
    return Plant(name, f"tools/rules/{file}.py", swap(old, new), FEW, "FAILED")


OPERATORS = [
    plant("a filter keeps what is unknown", "streams", r"truth\(where, item\) is True", "truth(where, item) is not False"),
    plant("not unknown is true", "predicates", r"return None if found is None else not found", "return not found"),
    plant("or of false and unknown is false", "predicates", r"None if None in found else not settles", "not settles"),
    plant("a comparison turned round", "predicates", r'"<": operator.lt', '"<": operator.gt'),
    plant("null is less than all", "values", r"reverse=way == \"desc\"\) \+ absent", 'reverse=way == "desc"); rows = absent + rows'),
    plant("a sort by its first key alone", "values", r"in reversed\(keys\)", "in keys[:1]"),
    plant("a sort that doesn't turn round", "values", r', reverse=way == "desc"\)', ")"),
    plant("a sort that forgets the order before it", "streams", r"in_order\(rows, keys\)", "in_order(rows[::-1], keys)"),
    plant("a limit lets one row more out", "streams", r"while count > 0", "while count >= 0"),
    plant("a project in the order of its columns", "streams", r"for column in columns\] if is_row", "for column in sorted(columns)] if is_row"),
    plant("a join matches nulls", "operators", r"\[\] if None in values else ", ""),
    plant("a join gives the right columns first", "operators", r"row \+ other for other", "other + row for other"),
    plant("a join matches the last right row alone", "operators", r"self\.found\.get\(values, \[\]\)\]", "self.found.get(values, [])[-1:]]"),
    plant("a join by its first pair alone", "operators", r"self\.on = on", "on = self.on = on[:1]"),
    plant("a count of a column counts nulls", "operators", r"    if new is None:\n        return value\n    if call\[0\] == \"count\":\n        return fitting\(value \+ 1",
          '    if new is None and call[0] != "count":\n        return value\n    if call[0] == "count":\n        return fitting(value + 1'),
    plant("a sum over nothing is 0", "operators", r'return 0 if call\[0\] == "count" else None', 'return {"count": 0, "sum": Wide(0)}.get(call[0])'),
    plant("a least value is the greatest", "operators", r'\(word == "min"\)', '(word == "max")'),
    plant("a final counts partial rows", "operators", r"fitting\(value \+ new, COUNT_BITS", "fitting(value + 1, COUNT_BITS"),
    plant("a final without a group gives nothing over nothing", "operators", r"\{\} if group else \{\(\): \[begun\(call\) for call in calls\]\}", "{}"),
    plant("a final drops groups of null", "operators", r"def take\(self, row: list\) -> None:\n",
          "def take(self, row: list) -> None:\n        if self.is_final and None in row[: len(self.group)]:\n            return\n"),
    plant("a final that takes each partial row for a group", "operators", r"tuple\(row\[place\] for place in self\.group\)",
          "tuple(row[place] for place in (range(len(row)) if self.is_final else self.group))"),
    plant("a sum that never overflows", "operators", r"        raise Overflow\(node\)", "        pass"),
    plant("an overflow told of the root", "operators", r"raise Overflow\(node\)", "raise Overflow(0)"),
]

MOTIONS = [
    plant("a redistribute by the first column", "worker", r'self\.value\["keys"\], self\.segments', "[0], self.segments"),
    plant("a redistribute over all segments but one", "worker", r'self\.value\["keys"\], self\.segments\)', 'self.value["keys"], max(1, self.segments - 1))'),
    plant("a broadcast leaves the last receiver out", "worker", r"receivers = self\.wanting\n", "receivers = self.wanting[:-1] or self.wanting\n"),
    plant("a row that is too long loses its first chunk", "worker", r"self\.work = \[\(to, size, ended\) for size, ended in chunks for", "self.work = [(to, size, ended) for size, ended in chunks[:1] for"),
    plant("a merge that doesn't wait for a head", "worker", r"        if self\._asked\(\) is not None:\n            return None\n", "        if not heads:\n            return None\n"),
    plant("equal heads go by the last sender", "worker", r"least is None or goes_before\(self\.order, self\.held\[sender\]\[0\], self\.held\[least\]\[0\]\)",
          "least is None or not goes_before(self.order, self.held[least][0], self.held[sender][0])"),
    plant("an ordered gather asks any sender", "worker", r"self\.hub\.take\(self\.motion\) if self\.order is None else self\.hub\.take_from\(self\.motion, self\._asked\(\)\)",
          "self.hub.take(self.motion)"),
    plant("a gather gives no row before the end", "worker", r"return heads\[0\] if heads else None", "return heads[0] if heads and not self.open else None"),
    plant("a join takes its left side first", "streams", r"    rows = \[\]\n    for item in right:", "    right, left = left, right\n    rows = []\n    for item in right:"),
    plant("a replicated table is sent by all", "slices", r"\[0\] if seen\[child\.number\]\.locus == REPLICATED else ", ""),
    plant("motions numbered from the last one", "slices", r"for child in node\.children:\n            walk", "for child in node.children[::-1]:\n            walk"),
    plant("a satisfied limit halts nobody", "worker", r"not any\(it\.halt_one\(\) for it in self\.heard\)", "not []"),
    plant("a slice halts before it has finished", "worker", r"self\.stage = ENDING", "self.stage = HALTING"),
    plant("a slice halts the first sender alone", "worker", r"self\.stage == HALTING and not any\(it\.halt_one\(\) for it in self\.heard\)",
          "self.stage == HALTING and (not any(it.halt_one() for it in self.heard) or len(self.heard[0].halted) > 0)"),
    plant("a put that was answered Full is left out", "worker", r"        elif answer != FULL:\n            self\.work\.pop", "        else:\n            self.work.pop"),
    plant("two rows let out in a turn", "worker", r"            self\.let_out\.append\(item\)\n", "            self.let_out.append(item)\n            return self._give()\n"),
    plant("a worker with 257 turns", "session", r"TURNS = 256", "TURNS = 257"),
    plant("slices in the order of their numbers", "session", r"reversed\(plan\.slices\)", "plan.slices[1:] + plan.slices[:1]"),
]

NETWORK = [
    plant("words of the next seed", "network", r"self\.state = seed", "self.state = seed + 1"),
    plant("copies in the order of their sends", "network", r"\(key, self\.sends, copy, datagram\)", "(self.sends, key, copy, datagram)"),
    plant("lost by the second word", "network", r"lost, repeated, late, later =", "repeated, lost, late, later ="),
    plant("a muted pair in both directions", "network", r"datagram\[:2\] == self\.fate\.mute", "set(datagram[:2]) == set(self.fate.mute or ())"),
    plant("quiet while another has one in hand", "network", r"self\.under_way == 0 and not self\.in_hand - \{node\}", "self.under_way == 0"),
    plant("a packet that was taken is kept again", "receiver", r"seq <= self\.run or seq in self\.kept", "seq in self.kept"),
    plant("a packet past the depth is kept", "receiver", r"        if seq > self\.consumed \+ self\.depth:\n            return None\n", ""),
    plant("missing numbers without the last", "receiver", r"range\(self\.run \+ 1, greatest\)", "range(self.run + 1, greatest - 1)"),
    plant("a halted connection takes on", "receiver", r"        if self\.halted:\n", "        if False:\n"),
    plant("a stop that is no answer", "sender", r"self\.stopped, self\.kept, self\.query_due = True, \[\], None", "self.query_due = None"),
    plant("what is due isn't sent again", "hub", r"self\._emit\(it, self\.senders\[it\]\.send_again\(packets, self\.now\)\)", "self.senders[it].send_again(packets, self.now)"),
    plant("a take of the least sender always", "hub", r"min\(after or ready\)", "min(ready)"),
    plant("a query of which one node hasn't left is over", "session", r"if all\(hub\.left for hub", "if any(hub.left for hub"),
]

FAULTS = [*OPERATORS, *MOTIONS, *NETWORK]
