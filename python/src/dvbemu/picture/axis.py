"""The axis that all lanes of a picture share: a column for each batch of the feeder, and between two batches columns for the
calls, in the order of each node and of each client.

A call stands behind the batches that had passed its node. So in a report of `run`, where a batch passes one node after another,
two calls on two nodes can stand on two sides of a batch though they came the other way round; those on one node never do.
"""
from __future__ import annotations

from array import array
from itertools import accumulate, groupby
from typing import TYPE_CHECKING

from .. import reports
from .marks import Group
from .svg import LEFT, STRIP, WIDTH

if TYPE_CHECKING:
    from typing import Iterable, Iterator, Sequence, Tuple, TypeVar, Union

    from ..reports import Entry, Outcome, Report

    T = TypeVar("T")
    # A call's step, or that of a command that makes none: the step before it, and its number; and a call's client and step.
    Step = Union[int, Tuple[int, int]]
    Call = Tuple[int, Step]

COLUMN, CELL, MOST_DENSE = 42, 24, 4


class Gap:
    """The calls between two batches: those of each node and those of each client, in their order."""

    def __init__(self) -> None:
        self.nodes: dict[int, list[Call]] = {}
        self.clients: dict[int, list[tuple[Step, int | None]]] = {}

    def add(self, node: int | None, client: int, step: Step) -> None:
        """Adds a call; node is None for a command that makes none."""
        if node is not None:
            self.nodes.setdefault(node, []).append((client, step))
        self.clients.setdefault(client, []).append((step, node))

    def place(self) -> dict[Call, int]:
        """A place from 0 on for each call, greater than those of the calls before it on its node and by its client."""
        waiting = {node: list(reversed(calls)) for node, calls in self.nodes.items()}
        own = {client: sorted(calls, key=order_of, reverse=True) for client, calls in self.clients.items()}
        places: dict[Call, int] = {}
        behind: dict[tuple[str, int], int] = {}
        while any(own.values()):
            before = len(places)
            for client, calls in own.items():
                self.place_some(client, calls, waiting, places, behind)
            if len(places) == before:
                # (what is left in the order of its node alone: in no report of a program is each of two callers before the other)
                commands = [(client, step) for client, calls in own.items() for step, node in reversed(calls) if node is None]
                left = [*(call for calls in waiting.values() for call in reversed(calls)), *commands]
                first = max(places.values(), default=-1) + 1
                return {**places, **{call: first + number for number, call in enumerate(left)}}
        return places

    @staticmethod
    def place_some(client: int, calls: list[tuple[Step, int | None]], waiting: dict[int, list[Call]], places: dict[Call, int],
                   behind: dict[tuple[str, int], int]) -> None:  # fmt: skip
        """Places the calls of a client that are the next ones of their node."""
        while calls and (calls[-1][1] is None or waiting[calls[-1][1]][-1] == (client, calls[-1][0])):
            step, node = calls.pop()
            keys = [("client", client)]
            if node is not None:
                waiting[node].pop()
                keys.append(("node", node))
            places[client, step] = max(behind.get(key, 0) for key in keys)
            behind.update(dict.fromkeys(keys, places[client, step] + 1))


class Calls:
    """The calls of all nodes, in the order of each node: how many batches had passed, the node and the client of each, and its step, or the
    number in `others` of what stands in its place."""

    NONE = 255

    def __init__(self) -> None:
        self.passed, self.nodes, self.clients, self.steps = array("Q"), array("B"), array("B"), array("Q")
        self.others: list[Step] = []

    def add(self, passed: int, node: int | None, client: int, step: Step) -> None:
        """Puts a call behind the others; node is None for a command that makes none."""
        self.passed.append(passed)
        self.nodes.append(self.NONE if node is None else node)
        self.clients.append(client)
        self.steps.append(step if isinstance(step, int) else len(self.others))
        self.others += [] if isinstance(step, int) else [step]

    def gaps(self) -> Iterator[tuple[int, Gap]]:
        """The calls between the batches, by how many had passed."""
        order = array("Q", sorted(range(len(self.passed)), key=self.passed.__getitem__))
        for passed, places in groupby(order, self.passed.__getitem__):
            gap = Gap()
            for at in places:
                node, step = self.nodes[at], self.steps[at]
                gap.add(*(None, self.clients[at], self.others[step]) if node == self.NONE else (node, self.clients[at], step))
            yield passed, gap


def order_of(call: tuple[Step, int | None]) -> tuple[int, ...]:
    """Where a call stands among those of its client: a command that makes none behind the call of the step before it."""
    return call[0] if isinstance(call[0], tuple) else (call[0],)


class Axis:
    """The columns from left to right. Where there are too many they are gathered in cells, and narrower. `refused` has the steps of each
    client that were refused or Busy."""

    def __init__(self, report: Report, width: float = WIDTH) -> None:
        self.width = width
        self.calls: dict[int, dict[Step, int]] = {client: {} for client in range(reports.CLIENTS)}
        self.refused: dict[int, set[int]] = {client: set() for client in range(reports.CLIENTS)}
        calls = self.calls_of(report)
        self.widths, self.batches, column = [0] * (self.passes + 1), array("Q"), 0
        for number, gap in calls.gaps():
            places, begin = gap.place(), column + number
            self.widths[number] = max(places.values()) + 1
            for (client, step), place in places.items():
                self.calls[client][step] = begin + place
            column += self.widths[number]
        self.batches.extend(number + wide for number, wide in enumerate(accumulate(self.widths)))
        self.count = self.batches.pop()
        self.gathers = self.count * CELL > width
        self.edges: Sequence[float] = array("d", self.gathered_edges()) if self.gathers else self.plain_edges()
        self.right: float = self.edges[-1]
        self.cuts = self.strips()

    def calls_of(self, report: Report) -> Calls:
        """The calls of all nodes, each with how many batches had passed: also the commands that make none, or none that a node has."""
        found, passes = Calls(), []
        for node, entries in report.nodes.items():
            count = 0
            for count, entry in enumerate(entries.calls(), 1):
                client, passed = int(entry.who[1]), entry.place - count + 1
                found.add(passed, node, client, entry.step)
                self.calls[client][entry.step] = passed
                is_refused = entry.reply.partition(" ")[0] in (*reports.REFUSALS, "busy")
                (self.refused[client].add if is_refused else self.refused[client].discard)(entry.step)
            passes.append(len(entries) - count)
        self.passes, self.has_batches = max(passes, default=0), any(passes[:1])
        for client, outcomes in enumerate(report.clients):
            seen = self.calls[client]
            for number, outcome in enumerate(outcomes):
                if not any(step in seen for step in ends_of(outcome)):
                    found.add(seen.get(outcome.first - 1, 0), None, client, (outcome.first - 1, number))
        return found

    def command(self, client: int, number: int, outcome: Outcome) -> tuple[int, int]:
        """The first and the last column of a command. One whose calls no node has stands where one without calls does."""
        calls = self.calls[client]
        columns = [calls[step] for step in ends_of(outcome) if step in calls] or [calls.get((outcome.first - 1, number), 0)]
        return min(columns), max(columns)

    def columns_of(self, entries: Iterable[Entry]) -> list[int]:
        """The column of each entry of a node."""
        batches = iter(self.batches)
        return [next(batches) if entry.who == "feed" else self.calls[int(entry.who[1])][entry.step] for entry in entries]

    # ------ from columns to places on the paper

    def plain_edges(self) -> list[float]:
        """The edges of columns that all have the same width."""
        wide = min(COLUMN, self.width / max(self.count, 1))
        return [LEFT + wide * column for column in range(self.count + 1)]

    def gathered_edges(self) -> list[float]:
        """The edges of columns that are too many. The calls before the first batch and behind End, and those of a few gaps that
        have far more than the others, get zones of their own, together at most half of the width; each batch has as much as the
        others."""
        dense = self.dense_gaps()
        columns = sum(wide * (number not in dense) + 1 for number, wide in enumerate(self.widths)) - 1
        pool = max(min(columns * CELL, self.width / 2), self.width - sum(self.widths[number] * CELL for number in dense))
        zones = shares({number: self.widths[number] * CELL for number in dense}, self.width - min(pool, columns * CELL))
        unit = min(pool, columns * CELL) / max(self.passes, 1)
        edges: list[float] = [LEFT]
        for number, wide in enumerate(self.widths):
            if number in dense:
                edges += parts(edges[-1], zones[number], wide)
            inside = (0 if number in dense else wide) + (number < self.passes)
            edges += parts(edges[-1], unit if number < self.passes else 0, inside)
        return edges

    def dense_gaps(self) -> list[int]:
        """The first and the last gap, and at most four others that have far more calls than most."""
        usual = sorted(self.widths)[len(self.widths) // 2]
        most = sorted(range(1, len(self.widths) - 1), key=lambda number: -self.widths[number])[:MOST_DENSE]
        inner = [number for number in most if self.widths[number] >= max(4, 3 * usual)]
        return sorted({0, len(self.widths) - 1, *inner})

    def strips(self) -> list[float]:
        """Where the strips end, each at an edge of a cell; the last one with the columns."""
        cells = list(self.edges[1:])
        if self.gathers:
            cells = [LEFT + CELL * cell for cell in range(1, int((self.right - LEFT) // CELL) + 1)]
        found: list[float] = []
        begin: float = LEFT
        for edge, behind in zip(cells, [*cells[1:], self.right]):
            if behind - begin > STRIP and self.right - begin > STRIP:
                found.append(edge)
                begin = edge
        return [*found, self.right]

    def end_of_strip(self, x: float) -> float:
        """Where the strip ends in which a place is."""
        return next((cut for cut in self.cuts if cut > x), self.right)

    def seen(self, x: float, to: float) -> list[tuple[float, float]]:
        """What each strip shows of what is drawn between two places."""
        edges = [x, *(cut for cut in self.cuts if x < cut < to), to]
        return list(zip(edges, edges[1:]))

    def left(self, column: int) -> float:
        """The left edge of a column."""
        return self.edges[column]

    def middle(self, column: int) -> float:
        """The middle of a column."""
        return (self.edges[column] + self.edges[column + 1]) / 2

    def cell(self, column: int) -> int:
        """The number of the cell that a column falls into."""
        return int((self.middle(column) - LEFT) // CELL) if self.gathers else column

    def cell_middle(self, cell: int) -> float:
        """The middle of a cell."""
        return LEFT + (cell + 0.5) * CELL if self.gathers else self.middle(cell)

    def cell_width(self) -> float:
        """The width of a cell."""
        return CELL if self.gathers else self.edges[1] - self.edges[0]

    def gather(self, placed: Iterable[tuple[int, T]]) -> list[tuple[int, Group[T]]]:
        """The things that fall into the same cell, each of which comes with its column, by the cell, from left to right."""
        found: dict[int, Group[T]] = {}
        for column, thing in placed:
            found.setdefault(self.cell(column), Group()).add(thing)
        return sorted(found.items(), key=lambda item: item[0])


def ends_of(outcome: Outcome) -> tuple[int, ...]:
    """The first and the last step of a command; none where it makes no call."""
    return (outcome.first, outcome.after - 1) if outcome.first < outcome.after else ()


def parts(begin: float, wide: float, count: int) -> list[float]:
    """The right edges of so many equal parts."""
    return [begin + wide * (part + 1) / count for part in range(count)]


def shares(wanted: dict[int, float], room: float) -> dict[int, float]:
    """How much of the room each gets that wants so much: what is left by those that want less goes to the others."""
    given: dict[int, float] = {}
    for key in sorted(wanted, key=wanted.__getitem__):
        given[key] = min(wanted[key], (room - sum(given.values())) / (len(wanted) - len(given)))
    return given
