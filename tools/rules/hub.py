"""The node of one segment, or of the dispatcher: the ends of its connections, one query at a time (docs/PROTOCOL.md).

A connection is (motion, sending end, receiving end). A datagram is (from, to, query, connection, kind, seq, extra, what it carries).
"""
from __future__ import annotations

from typing import Callable

from .network import Network
from .receiver import Answer, Receiver
from .sender import Out, Sender, Spent, TooLong

DATAGRAMS = 1024  # that a node receives in a round
TO_RECEIVER = ("rows", "last", "query")
Connection = tuple[int, int, int]


class Given(Exception):
    """A connection that was given up: what is spent on it."""

    def __init__(self, connection: Connection, spent: Spent) -> None:
        super().__init__(connection, spent)
        self.connection = connection
        self.spent = spent


class Hub:
    def __init__(self, at: int, settings: dict, network: Network) -> None:
        self.at = at
        self.settings = settings
        self.network = network
        self.now = 0
        self.query = 0
        self.left = True
        self.quiet = False
        self.senders: dict[Connection, Sender] = {}
        self.receivers: dict[Connection, Receiver] = {}
        self.served: dict[int, int] = {}  # of a motion, the sender that was served last

    def begin(self, query: int, connections: list[Connection]) -> None:
        """Begins a query with its ends of these connections, which are in order."""
        self.query, self.left, self.served = query, False, {}
        self.senders = {it: Sender(self.settings) for it in connections if it[1] == self.at}
        self.receivers = {it: Receiver(self.settings["receive_depth"]) for it in connections if it[2] == self.at}

    # ---- what its workers ask

    def put(self, motion: int, to: int, size: int, ended: list) -> str:
        """Puts a chunk of this size, its head included, that ends these rows: one or none."""
        return self._ask((motion, self.at, to), lambda end: end.put(size, ended, self.now))

    def finish(self, motion: int, to: int) -> str:
        return self._ask((motion, self.at, to), lambda end: end.finish(self.now))

    def _ask(self, it: Connection, call: Callable[[Sender], tuple[str, list[Out]]]) -> str:
        try:
            answer, out = call(self.senders[it])
        except TooLong:
            raise TooLong(it) from None
        self._emit(it, out)
        return answer

    def take(self, motion: int) -> tuple[int, list, bool] | None:
        """The next packet of the first sender that has one, in cyclic order after the one served last."""
        ready = [it[1] for it, end in self.receivers.items() if it[0] == motion and end.is_ready()]
        if not ready:
            return None
        after = [sender for sender in ready if sender > self.served.get(motion, -2)]
        self.served[motion] = min(after or ready)
        return self.take_from(motion, self.served[motion])

    def take_from(self, motion: int, sender: int) -> tuple[int, list, bool] | None:
        """The next packet of this sender: the sender, the rows that end in it, and whether it is the last."""
        it = (motion, sender, self.at)
        end = self.receivers[it]
        if not end.is_ready():
            return None
        rows, answer = end.take()
        self._answer(self.query, it, answer)
        return sender, rows, end.whole

    def halt(self, motion: int, sender: int) -> None:
        it = (motion, sender, self.at)
        answer = self.receivers[it].halt()
        if answer is not None:
            self._answer(self.query, it, answer)

    def _emit(self, it: Connection, out: list[Out]) -> None:
        for one in out:
            self.network.send((self.at, it[2], self.query, it, one.kind, one.seq, 0, one.rows))

    def _answer(self, query: int, it: Connection, answer: Answer) -> None:
        self.network.send((self.at, it[1], query, it, answer.kind, answer.seq, answer.extra, answer.missing))

    # ---- the steps of a round

    def receive_all(self) -> None:
        self.quiet = False
        for _ in range(DATAGRAMS):
            datagram = self.network.receive(self.at)
            if datagram is None:
                self.quiet = self.network.is_quiet(self.at)
                return
            self.arrive(*datagram[2:])

    def arrive(self, query: int, it: Connection, kind: str, seq: int, extra: int, carried: list) -> None:
        if self.left or query != self.query:
            if kind in TO_RECEIVER:  # that query has ended here; an answer to it is late
                self._answer(query, it, Answer("stop", seq, 0))
        elif kind in TO_RECEIVER:
            end = self.receivers[it]
            answer = end.on_query(seq) if kind == "query" else end.on_packet(seq, carried, kind == "last")
            if answer is not None:
                self._answer(query, it, answer)
        else:
            self._emit(it, self.senders[it].hear(kind, seq, extra, carried, self.now))

    def tick(self) -> None:
        """Sends again what is due: packets by connection and number, then status queries by connection. None may be spent."""
        self.now += 1
        if self.left:
            return
        due = [(it, end.due(self.now)) for it, end in self.senders.items() if end.waits()]
        queries = [it for it, end in self.senders.items() if end.query_is_due(self.now)]
        for found in (self._spent_packet(due), self._spent_query(queries)):
            if found is not None:
                raise found
        for it, packets in due:
            self._emit(it, self.senders[it].send_again(packets, self.now))
        for it in queries:
            self._emit(it, self.senders[it].query_again(self.now))

    def _spent_packet(self, due: list) -> Given | None:
        for it, packets in due:
            spent = self.senders[it].spent_of(packets)
            if spent is not None:
                return Given(it, spent)
        return None

    def _spent_query(self, queries: list[Connection]) -> Given | None:
        for it in queries:
            spent = self.senders[it].spent_query()
            if spent is not None:
                return Given(it, spent)
        return None

    def leave(self) -> None:
        """Leaves the query if all its ends are clear."""
        self.left = all(end.is_clear() for end in self.senders.values()) and all(end.is_over() for end in self.receivers.values())
