"""Small worked steps of the model's parts: what each comes to, and what it has to come to, followed by hand from the rules."""
from __future__ import annotations

from typing import Callable

from rules import operators, plans
from rules.answer import DEFAULTS, parts_in
from rules.hub import Hub
from rules.network import Fate, Network, Random
from rules.operators import Groups, Matches, Overflow
from rules.packets import Wide
from rules.predicates import truth
from rules.receiver import Receiver
from rules.sender import FULL, OK, STOPPED
from rules.session import Fault, Session
from rules.slices import DISPATCHER, Cut, Slice, cut
from rules.streams import MORE, WAIT
from rules.worker import DONE, Hearing, Sending, Worker

from .worked import aggregated, document, four, gathered, over, scan, table


class Script:
    """A hub that answers from a list, and keeps what it was asked."""

    def __init__(self, at: int, answers: list) -> None:
        self.at = at
        self.answers = answers
        self.asked: list[str] = []

    def _next(self, asked: str) -> object:
        self.asked.append(asked)
        return self.answers.pop(0)

    def put(self, motion: int, to: int, size: int, ended: list) -> object:
        return self._next(f"put {ended} to {to}" if ended else f"put to {to}")

    def finish(self, motion: int, to: int) -> object:
        return self._next(f"finish {to}")

    def take(self, motion: int) -> object:
        return self._next("take")

    def take_from(self, motion: int, sender: int) -> object:
        return self._next(f"take from {sender}")

    def halt(self, motion: int, sender: int) -> None:
        self.asked.append(f"halt {sender}")


def plan_of(it: dict) -> Cut:
    return cut(*plans.seen_of(it["queries"][0], it), it["segments"])


def pulled(hearing: Hearing, count: int) -> list:
    stream = hearing.stream()
    return [next(stream, "end") for _ in range(count)]


def heads() -> object:
    """An ordered gather gives no row while the head of a sender isn't known, and asks the first such sender."""
    hub = Script(DISPATCHER, [(0, [[2]], False), None, (1, [[2], [1]], True), (0, [], True)])
    return pulled(Hearing(hub, 1, [0, 1], [[0, "asc"]]), 8), hub.asked


def as_they_come() -> object:
    """A gather without an order gives the rows of a parcel before it takes the next one."""
    hub = Script(DISPATCHER, [(1, [[3], [1]], False), (0, [[2]], True), None, (1, [], True)])
    return pulled(Hearing(hub, 1, [0, 1], None), 8), hub.asked


def turns(worker: Worker) -> list[bool]:
    found = [worker.turn()]
    while worker.stage != DONE and len(found) < 20:
        found.append(worker.turn())
    return found


def worker_over(it: dict, number: int, hub: Script) -> Worker:
    plan = plan_of(it)
    return Worker(plan, plan.slices[number], hub, 8192, parts_in(it))


def full_first() -> object:
    """A put that was answered Full is made again."""
    hub = Script(0, [FULL, OK, OK, OK])
    return turns(worker_over(four(gathered(scan())), 1, hub)), hub.asked


def unwanted() -> object:
    """A slice whose receivers have all stopped halts its senders, and puts nothing more."""
    it = four(gathered(over("redistribute", scan(), keys=[0])))
    hub = Script(1, [(0, [[11], [13]], False), STOPPED])
    return turns(worker_over(it, 1, hub)), hub.asked


def satisfied() -> object:
    """A limit that is satisfied finishes the streams that are sent, and then halts the senders that go on."""
    plan = over("limit", gathered(over("limit", over("redistribute", scan(), keys=[0]), count=1)), count=1)
    hub = Script(1, [(0, [[11], [13]], True), OK, OK])
    return turns(worker_over(four(plan), 1, hub)), hub.asked


def right_first() -> object:
    """A join takes its right side to the end before it takes of its left side."""
    join = {"op": "join", "left": over("redistribute", scan("l"), keys=[0]), "right": over("broadcast", scan("r")), "on": []}
    it = document(gathered(join), [table("l", "i", []), table("r", "i", [])])
    hub = Script(0, [(0, [], True), (1, [], True), (0, [], True), (1, [], True), OK])
    worker = worker_over(it, 1, hub)
    worker.heard[0].hub = Script(0, [None, None])  # nothing has come on the left side
    return [worker.turn() for _ in range(4)], hub.asked, worker.heard[0].hub.asked


def to_all() -> object:
    """A row that is broadcast in two chunks: the first chunk to each receiver, then the second one to those that go on."""
    hub = Script(0, [OK, STOPPED, OK, OK, OK])
    node = plans.numbered(over("broadcast", scan()), [], [0])
    sending = Sending(hub, Slice(1, node.children[0], [0], node, [0, 1, 2]), 128, 3)
    sending.begin(["x" * 50])
    while sending.work:
        sending.put_one()
    return hub.asked, sending.wanting


def by_a_seed() -> object:
    """Of six sends the first and the fifth are lost, the second comes after the third, and the fourth comes twice."""
    network = Network([-1, 0], Fate(seed=3, loss=200, repeat=300, delay=4))
    for number in range(1, 7):
        network.send((-1, 0, number))
    came = [network.receive(0) for _ in range(6)]
    return [it and it[2] for it in came]


def muted() -> object:
    """What a muted pair sends is lost; what comes the other way isn't."""
    network = Network([-1, 0], Fate(mute=(0, -1)))
    network.send((0, -1))
    first = network.receive(-1), network.is_quiet(-1)
    network.send((-1, 0))
    return first, network.receive(-1), network.is_quiet(-1), network.receive(0), network.is_quiet(-1), network.receive(0), network.is_quiet(0)


def seven_answers() -> object:
    """A receiving end of depth 4 that gets the packets 3, 3, 2, 2, 1, 1 and then 6."""
    end = Receiver(4)
    answers = [end.on_packet(seq, [], False) for seq in (3, 3, 2, 2, 1, 1, 6)]
    return [it and (it.kind, it.seq, it.extra, *it.missing) for it in answers]


def too_great() -> object:
    """A count and a sum of a final that leave their bits, with the number of the node."""
    found = []
    for call, values in ((["count"], [2**63 - 1, 1]), (["sum", 0], [Wide(2**127 - 1), Wide(1)]), (["sum", 0], [Wide(-(2**127)), Wide(-1)])):
        groups = Groups(True, [], [call], 5)
        groups.take([values[0]])
        try:
            groups.take([values[1]])
            found.append(groups.rows())
        except Overflow as over_:
            found.append(over_.node)
    return found


def overflows() -> object:
    """The line of a count that leaves its bits, if it had only 2 of them: at segment 0, which has two rows."""
    plan = operators_final()
    it = four(plan)
    bits, operators.COUNT_BITS = operators.COUNT_BITS, 2
    try:
        Session(2, DEFAULTS, Fate(), 10, True).run(1, plan_of(it), parts_in(it))
    except Fault as fault:
        return fault.status, fault.line
    finally:
        operators.COUNT_BITS = bits
    return None


def operators_final() -> dict:
    return over("agg", gathered(aggregated([], [["count"]], scan(), "partial")), stage="final")


def first_rows() -> object:
    """Turn by turn: what slice 0 lets out once both segments have sent, by the least sender that is ready."""
    it = four(gathered(scan()))
    plan, rows_of = plan_of(it), parts_in(it)
    network = Network([-1, 0, 1], Fate())
    hubs = {at: Hub(at, DEFAULTS, network) for at in (-1, 0, 1)}
    for at, hub in hubs.items():
        hub.begin(1, [one for one in plan.connections() if at in one[1:]])
    for at in (0, 1):
        worker = Worker(plan, plan.slices[1], hubs[at], 8192, rows_of)
        assert [worker.turn() for _ in range(5)] == [True, True, True, True, False]
    hubs[-1].receive_all()
    root = Worker(plan, plan.slices[0], hubs[-1], 8192, rows_of)
    return [root.turn() for _ in range(9)], root.let_out


def again_and_again() -> object:
    """The same packet three times: a first answer, and two that say it was there. A packet of a query that has ended is stopped."""
    network = Network([-1, 0], Fate())
    hub = Hub(-1, DEFAULTS, network)
    hub.begin(1, [(1, 0, -1)])
    for _ in range(3):
        hub.arrive(1, (1, 0, -1), "last", 1, 0, [[10]])
    taken = hub.take(1)
    hub.leave()
    hub.begin(2, [(1, 0, -1)])
    hub.arrive(1, (1, 0, -1), "last", 1, 0, [[10]])
    hub.arrive(1, (1, 0, -1), "ack", 1, 1, [])
    sent = [network.receive(0) for _ in range(6)]
    return taken, [it and (it[2], *it[4:7]) for it in sent], hub.receivers[1, 0, -1].taken_rows


def summed() -> object:
    """A sum that no int holds is a value of another kind."""
    groups = Groups(False, [], [["sum", 0], ["count"], ["count", 0], ["min", 0], ["max", 0]], 1)
    for value in (2**63 - 1, 2**63 - 1, None, 2**63 - 1, 2**63 - 1):
        groups.take([value])
    return groups.rows()


def matched() -> object:
    """A join of the right rows [1,5], [1,4], [null,3] with the left rows [1] and [null]."""
    matches = Matches([[0, 0]], [[1, 5], [1, 4], [None, 3]])
    return [matches.of(row) for row in ([1], [None])]


def truths() -> object:
    """`and`, `or` and `not` of true, false and unknown."""
    parts = {True: ["=", 1, 1], None: ["=", 1, None], False: ["=", 1, 2]}
    pairs = [(a, b) for a in parts for b in parts]
    found = [[truth([word, parts[a], parts[b]], []) for a, b in pairs] for word in ("and", "or")]
    return [*found, [truth(["not", part], []) for part in parts.values()], truth(["null", None], [])]


def wanting_no_more() -> object:
    """A receiving end that was halted answers each packet and each status query by a stop, and a second halt by nothing."""
    end = Receiver(4)
    answers = [end.on_packet(1, [[1]], False), end.halt(), end.halt(), end.on_packet(2, [], True), end.on_query(1)]
    return [it and (it.kind, it.seq, it.extra) for it in answers], end.is_ready()


def in_a_circle() -> object:
    """Takes serve the senders in turn, each one that has a packet; a take of one sender alone changes nothing of that."""
    hub = Hub(-1, DEFAULTS, Network([-1, 0, 1, 2], Fate()))
    hub.begin(1, [(1, at, -1) for at in (0, 1, 2)])
    for at, seq in ((0, 1), (0, 2), (1, 1), (2, 1), (2, 2)):
        hub.arrive(1, (1, at, -1), "rows", seq, 0, [[at, seq]])
    rows = [hub.take(1)[1] for _ in range(2)]
    return rows, hub.take_from(1, 0)[1], hub.take(1)[1], hub.take(1)[1], hub.take(1)


T, F = True, False
STEPS: list[tuple[Callable[[], object], object]] = [
    (heads, ([MORE, WAIT, MORE, [2], MORE, [2], [1], "end"], ["take from 0", "take from 1", "take from 1", "take from 0"])),
    (as_they_come, ([MORE, [3], [1], MORE, [2], WAIT, MORE, "end"], ["take", "take", "take", "take"])),
    (full_first, ([F, T, T, T, T, F], ["put [[10]] to -1", "put [[10]] to -1", "put [[12]] to -1", "finish -1"])),
    (unwanted, ([T, T, T, T, F], ["take", "put [[11]] to -1", "halt 0", "halt 1"])),
    (satisfied, ([T, T, T, T, T, F], ["take", "put [[11]] to -1", "finish -1", "halt 1"])),
    (right_first, ([T, T, F, F], ["take", "take"], ["take", "take"])),
    (to_all, (["put to 0", "put to 1", "put to 2", f"put {[['x' * 50]]} to 0", f"put {[['x' * 50]]} to 2"], [0, 2])),
    (by_a_seed, [3, 2, 4, 4, None, None]),
    (muted, ((None, T), None, F, (-1, 0), F, None, T)),
    (
        seven_answers,
        [("disorder", 3, 3, 1, 2), ("duplicate", 3, 0), ("disorder", 2, 3, 1), ("duplicate", 2, 0)]
        + [("ack", 3, 0), ("duplicate", 1, 3), None],
    ),
    (too_great, [5, 5, 5]),
    (overflows, (14, "error 14 overflow query 1 node 2 segment 0")),
    (first_rows, ([T] * 8 + [F], [[10], [12], [11], [13]])),
    (truths, [[T, None, F, None, None, F, F, F, F], [T, T, T, T, None, None, T, None, F], [F, None, T], T]),
    (wanting_no_more, ([("ack", 1, 0), ("stop", 0, 0), None, ("stop", 2, 0), ("stop", 1, 0)], F)),
    (in_a_circle, ([[[0, 1]], [[1, 1]]], [[0, 2]], [[2, 1]], [[2, 2]], None)),
    (again_and_again, ((0, [[10]], T), [(1, "ack", 1, 0), *[(1, "duplicate", 1, 1)] * 2, (1, "ack", 1, 1), (1, "stop", 1, 0), None], [])),
    (summed, [[Wide(36893488147419103228), 5, 4, 2**63 - 1, 2**63 - 1]]),
    (matched, [[[1, 1, 5], [1, 1, 4]], []]),
    (lambda: Random(0).word() % 100, 35),
]
