"""A desk, and what its calls give."""
from __future__ import annotations

import ctypes
import enum
import operator
from ctypes import c_uint8
from dataclasses import dataclass
from typing import Any, Optional, Union

from . import _library as library
from ._library import call
from ._refusals import judge

# The letter of a tenant, or its code.
Tenant = Union[str, int]


class Kind(enum.Enum):
    """Which rules a desk follows."""

    PROMISE = 0
    """Conservative backfilling: every job gets a promise, a minute by which it starts."""
    LOOSE = 1
    """EASY backfilling: the first waiting job gets a forecast."""


class State(enum.Enum):
    """What a live job does."""

    WAITING = 1
    RUNNING = 2
    CLEANUP = 3
    """Its run has ended, and its nodes are taken until the cleanup is over."""


@dataclass(frozen=True)
class Job:
    """A live job, as the desk has it."""

    ticket: int
    nodes: int
    estimate: int
    state: State
    tenant: str
    least: int
    start: Optional[int]
    """The minute in which it started. While it waits it is the planned start, and None on a Loose Desk."""
    promise: Optional[int]
    """The minute by which it starts, or was to start; None on a Loose Desk."""
    end: Optional[int]
    """The minute in which its run ended, of a job in cleanup alone."""
    submitted: Optional[int]
    """The minute of its submission; None on a Promise Desk."""
    rank: Optional[int]
    """One more than the number of jobs that waited just before its submission; None on a Promise Desk."""
    forecast: Optional[int]
    """The minute by which it was told to start as the first that waits; None if it was not told."""


@dataclass(frozen=True)
class Head:
    """The first job that waits on a Loose Desk, and the minute by which it starts."""

    ticket: int
    forecast: int


@dataclass(frozen=True)
class Answer:
    """What a call gives that is taken."""

    ticket: Optional[int]
    """Of a submission or a correction."""
    promise: Optional[int]
    """On a Promise Desk, the minute by which that job starts."""
    reads: int
    """How many points of the profile were read to find it."""
    ended: tuple[int, ...]
    """The tickets of the jobs whose runs ended, ascending."""
    started: tuple[int, ...]
    """The tickets of the jobs that started, in the order of starting."""
    head: Optional[Head]
    """On a Loose Desk, the first waiting job, if it was not the first before this call."""


@dataclass(frozen=True)
class Advanced:
    """What minutes that pass at once give."""

    minutes: int
    """How many have passed."""
    answer: Answer
    """To the last of them."""


@dataclass(frozen=True)
class Passed:
    """A minute in which runs ended, jobs started or another job became head."""

    minute: int
    answer: Answer


@dataclass(frozen=True)
class Point:
    """So many nodes are free from that minute on."""

    minute: int
    free: int


@dataclass(frozen=True)
class Block:
    """The fewest and the most free nodes of a block of 16 points."""

    fewest: int
    most: int


def _number(name: str, value: int) -> int:
    """The number, if the library can be asked about it: a larger one would be cut to 32 bits."""
    number = operator.index(value)
    if not 0 <= number < 1 << 32:
        raise ValueError(f"{name} is {number}, and not 0 to 4294967295")
    return number


def _letter(tenant: Tenant) -> int:
    """The code of a tenant's letter. Which of them are tenants is asked of the library."""
    if isinstance(tenant, str):
        if len(tenant) != 1:
            raise ValueError(f"a tenant is one letter, and not {tenant!r}")
        return ord(tenant)
    return _number("tenant", tenant)


def _tickets(tickets: Any) -> tuple[int, ...]:
    return tuple(tickets.list[: tickets.count])


class Desk:
    """The scheduler of one machine.

    `Desk.promise` and `Desk.loose` open a desk, and `Desk.from_text` reads one back. Calls that are refused raise `Refused` and change
    nothing. The meaning of each call, and what is proved of it, stand in `hingerota.h` and in hingerota(3).

    >>> desk = Desk.promise(nodes=10)
    >>> desk.submit(nodes=6, estimate=20)
    Answer(ticket=1, promise=0, reads=0, ended=(), started=(1,), head=None)
    >>> desk.submit(nodes=8, estimate=10).promise
    20
    >>> desk.complete(1).started
    (2,)
    >>> desk.cancel(2)
    Traceback (most recent call last):
        ...
    hingerota.Refused: refused by 11: the ticket is not waiting
    """

    __slots__ = ("_desk",)
    _desk: library.Desk

    def __init__(self) -> None:
        raise TypeError("Desk.promise, Desk.loose or Desk.from_text makes a desk")

    @classmethod
    def _of(cls, desk: library.Desk) -> Desk:
        made = cls.__new__(cls)
        made._desk = desk
        return made

    @classmethod
    def _opened(cls, name: str, nodes: int, minute: int, ticket: int, cleanup: int, quota_a: int, quota_b: int) -> Desk:
        given = {"nodes": nodes, "minute": minute, "ticket": ticket, "cleanup": cleanup, "quota_a": quota_a, "quota_b": quota_b}
        opened = call(name, library.Opening(**{field: _number(field, value) for field, value in given.items()}))
        judge(opened.refusal)
        return cls._of(_copy(opened.desk))

    @classmethod
    def promise(
        cls, nodes: int, *, minute: int = 0, ticket: int = 1, cleanup: int = 0, quota_a: int = 63, quota_b: int = 1
    ) -> Desk:
        """An empty desk that does conservative backfilling, of a machine with so many nodes.

        Its clock stands at `minute`, and `ticket` is the first to be given. Nodes stay taken for `cleanup` minutes after a run. The tenants
        A and B may have `quota_a` and `quota_b` live jobs, 64 together. Refused by 1, 3, 12 or 13.
        """
        return cls._opened("open_promise", nodes, minute, ticket, cleanup, quota_a, quota_b)

    @classmethod
    def loose(
        cls, nodes: int, *, minute: int = 0, ticket: int = 1, cleanup: int = 0, quota_a: int = 63, quota_b: int = 1
    ) -> Desk:
        """The same of a desk that does EASY backfilling."""
        return cls._opened("open_loose", nodes, minute, ticket, cleanup, quota_a, quota_b)

    @classmethod
    def from_text(cls, text: Union[str, bytes]) -> Desk:
        """The desk that the lines of a text give, as `text` writes them. Refused by 22 or 23.

        >>> desk = Desk.promise(nodes=4)
        >>> Desk.from_text(desk.text()) == desk
        True
        """
        given = text.encode("utf-8", "surrogateescape") if isinstance(text, str) else bytes(text)
        opened = call("restore", (c_uint8 * (len(given) + 1)).from_buffer_copy(given + b"\0"), len(given))
        judge(opened.refusal)
        return cls._of(_copy(opened.desk))

    @classmethod
    def from_bytes(cls, data: bytes) -> Desk:
        """The desk that stands in these bytes as a program in C has it, wherever they come from. Refused by 23 unless it is one."""
        if len(data) != ctypes.sizeof(library.Desk):
            raise ValueError(f"a desk has {ctypes.sizeof(library.Desk)} bytes, and not {len(data)}")
        desk = library.Desk.from_buffer_copy(data)
        judge(call("check", desk))
        return cls._of(desk)

    def __bytes__(self) -> bytes:
        """The desk as a program in C has it."""
        return bytes(self._desk)

    def copy(self) -> Desk:
        """Another desk that is the same."""
        return self._of(_copy(self._desk))

    __copy__ = copy

    def __deepcopy__(self, _: Any) -> Desk:
        return self.copy()

    def __reduce__(self) -> tuple[Any, tuple[bytes]]:
        return type(self).from_bytes, (bytes(self),)

    def __eq__(self, other: object) -> bool:
        if not isinstance(other, Desk):
            return NotImplemented
        return bytes(self._desk) == bytes(other._desk)

    # A desk changes.
    __hash__ = None  # type: ignore[assignment]

    def __repr__(self) -> str:
        jobs = len(self.jobs)
        return f"<Desk {self.kind.name.lower()}, {self.nodes} nodes, minute {self.clock}, {jobs} live job{'' if jobs == 1 else 's'}>"

    # What it is.

    @property
    def kind(self) -> Kind:
        return Kind(self._desk.kind)

    @property
    def nodes(self) -> int:
        """Of the machine."""
        return int(self._desk.nodes)

    @property
    def cleanup(self) -> int:
        """For how many minutes nodes stay taken after a run."""
        return int(self._desk.cleanup)

    @property
    def quota_a(self) -> int:
        """How many live jobs A may have."""
        return int(self._desk.quota_a)

    @property
    def quota_b(self) -> int:
        """How many live jobs B may have."""
        return int(self._desk.quota_b)

    @property
    def clock(self) -> int:
        """The minute that it is."""
        return int(self._desk.clock)

    @property
    def next_ticket(self) -> int:
        """The next ticket to be given."""
        return int(self._desk.next)

    @property
    def jobs(self) -> list[Job]:
        """The live jobs, in the order of their tickets."""
        # A copy, since other threads may change the desk while this goes through the records.
        desk, jobs = _copy(self._desk), []
        loose = Kind(desk.kind) is Kind.LOOSE
        for record in desk.jobs:
            if record.ticket == 0:
                break
            state = State(record.state)
            jobs.append(Job(
                ticket=record.ticket,
                nodes=record.nodes,
                estimate=record.estimate,
                state=state,
                tenant=chr(record.tenant),
                least=record.least,
                start=None if loose and state is State.WAITING else record.start,
                promise=None if loose else record.promise,
                end=record.end if state is State.CLEANUP else None,
                submitted=record.submitted if loose else None,
                rank=record.rank if loose else None,
                forecast=record.forecast or None,
            ))
        return jobs

    # Calls that change it.

    def _answer(self, given: Any) -> Answer:
        judge(given.refusal)
        promised = given.ticket != 0 and self.kind is Kind.PROMISE
        return Answer(
            ticket=given.ticket or None,
            promise=given.promise if promised else None,
            reads=given.reads,
            ended=_tickets(given.ended),
            started=_tickets(given.started),
            head=Head(given.head, given.forecast) if given.head else None,
        )

    def submit(self, nodes: int, estimate: int, tenant: Tenant = "A", least: int = 0) -> Answer:
        """A job is submitted: it runs for at most `estimate` minutes, and for at least `least`. Refused by 14, 1, 2, 19, 15, 5 or 6."""
        order = library.Order(_number("nodes", nodes), _number("estimate", estimate), _letter(tenant), _number("least", least))
        return self._answer(call("submit", self._desk, order))

    def complete(self, ticket: int) -> Answer:
        """A running job is over before its time. Refused by 7 or 20."""
        return self._answer(call("complete", self._desk, _number("ticket", ticket)))

    def cancel(self, ticket: int) -> Answer:
        """A waiting job is withdrawn. Refused by 11."""
        return self._answer(call("cancel", self._desk, _number("ticket", ticket)))

    def amend(self, ticket: int, nodes: int, estimate: int, least: int = 0) -> Answer:
        """The order of a waiting job is corrected.

        If neither its nodes nor its estimate rounded up grow, it keeps its ticket. If either grows, it is withdrawn and submitted anew, and the
        answer has its new ticket. Refused by 11, 1, 2 or 19, and if it grows by 5 or 6; then all stays as it was.
        """
        numbers = {"ticket": ticket, "nodes": nodes, "estimate": estimate, "least": least}
        amendment = library.Amendment(**{field: _number(field, value) for field, value in numbers.items()})
        return self._answer(call("amend", self._desk, amendment))

    def tick(self) -> Answer:
        """One minute passes. Refused by 6."""
        return self._answer(call("tick", self._desk))

    def advance(self, minutes: int) -> Advanced:
        """So many minutes pass, or fewer: up to the first in which something is due. Refused by 2 or 6."""
        given = call("advance", self._desk, _number("minutes", minutes))
        return Advanced(answer=self._answer(given.answer), minutes=given.minutes)

    def wait(self, minutes: int) -> list[Passed]:
        """So many minutes pass, all of them: what each gives that gives something. Refused by 2 or 6.

        >>> desk = Desk.promise(nodes=10)
        >>> for nodes, estimate in [(6, 20), (8, 10)]:
        ...     answer = desk.submit(nodes, estimate)
        >>> [(passed.minute, passed.answer.ended, passed.answer.started) for passed in desk.wait(60)]
        [(20, (1,), (2,)), (30, (2,), ())]
        """
        self.may_wait(minutes)
        told, left = [], minutes
        while left > 0:
            advanced = self.advance(left)
            answer = advanced.answer
            left -= advanced.minutes
            if answer.ended or answer.started or answer.head:
                told.append(Passed(self.clock, answer))
        return told

    def migrate(self) -> None:
        """A Loose Desk becomes a Promise Desk while jobs run; a Promise Desk stays as it is. It is never refused."""
        call("migrate", self._desk)

    # Questions, which leave it as it is.

    def may_wait(self, minutes: int) -> None:
        """Raises what would refuse a wait of so many minutes, 2 or 6."""
        judge(call("wait_refusal", self._desk, _number("minutes", minutes)))

    def earliest_start(self, ticket: int) -> int:
        """The minute before which a waiting job cannot start, whatever calls follow, unless its order is corrected. Refused by 11."""
        earliest = call("earliest_start", self._desk, _number("ticket", ticket))
        judge(earliest.refusal)
        return int(earliest.minute)

    def longest_estimate(self, nodes: int, tenant: Tenant = "A", *, minute: int) -> Optional[int]:
        """The longest estimate with which a job of so many nodes would be promised that minute or an earlier one; None if there is none.

        Refused by 21, 14, 1, 15, 5 or 6. A Loose Desk promises nothing, and it is None.
        """
        longest = call("longest_estimate", self._desk, library.Inquiry(_number("nodes", nodes), _letter(tenant), _number("minute", minute)))
        judge(longest.refusal)
        return longest.estimate or None

    def profile(self) -> list[Point]:
        """The free nodes of a Promise Desk from now on: each minute in which their number changes. A Loose Desk has no profile."""
        points = (library.Point * library.MOST_POINTS)()
        return [Point(point.minute, point.free) for point in points[: self._shown("profile", points)]]

    def index(self) -> list[Block]:
        """The fewest and the most free nodes of each 16 points of the profile."""
        blocks = (library.Block * library.MOST_BLOCKS)()
        return [Block(block.fewest, block.most) for block in blocks[: self._shown("index", blocks)]]

    def status_page(self) -> str:
        """The status page for people: 66 lines of 72 characters."""
        return self._written("status_page", library.PAGE_BYTES)

    def why(self) -> str:
        """Why jobs of a Promise Desk wait: a line for each of them, such as `stack 3 waits, minute 29, 2 with 8`."""
        return self._written("why", library.WHY_BYTES)

    def text(self) -> str:
        """The desk written out as lines, which `from_text` reads: see hingerota-text(5)."""
        return self._written("checkpoint", library.TEXT_BYTES)

    def _written(self, name: str, room: int) -> str:
        page = (c_uint8 * room)()
        return bytes(page[: self._shown(name, page)]).decode("ascii")

    def _shown(self, name: str, places: Any) -> int:
        shown = call(name, self._desk, places, len(places))
        judge(shown.refusal)
        return int(shown.count)


def _copy(desk: library.Desk) -> library.Desk:
    return library.Desk.from_buffer_copy(desk)
