"""The server's own estimates: the rows of each relation, and the fraction that the conditions of each pair keep."""

from __future__ import annotations

from dataclasses import dataclass, field

from .database import Database
from .graphs import Graphs
from .query import Pair, Query, derived_ors
from .sql import one_line

INPUT_CAP = 2**40
"""The greatest number of a workload."""

Fraction = tuple[int, int]
Conditions = tuple[str, ...]


@dataclass
class Estimates:
    """The rows of each relation without and with its filters, and the fraction of each pair and its conditions."""

    rows: dict[str, int] = field(default_factory=dict)
    filtered: dict[str, int] = field(default_factory=dict)
    fractions: dict[tuple[Pair, Conditions], Fraction] = field(default_factory=dict)


class _Batch:
    """Statements whose rows are asked for, each once and all together."""

    def __init__(self) -> None:
        self._places: dict[str, int] = {}
        self._rows: list[int] = []

    def add(self, select: str) -> str:
        self._places.setdefault(select, len(self._places))
        return select

    def ask(self, database: Database) -> None:
        self._rows = database.estimates(list(self._places))

    def rows(self, select: str) -> int:
        return min(self._rows[self._places[select]], INPUT_CAP)


def estimate(query: Query, graphs: Graphs, database: Database) -> Estimates:
    """The estimates that the join graphs of a statement need, by one batch of EXPLAINs."""
    batch = _Batch()
    alone = {alias: batch.add(_select(query, [alias], [])) for alias in query.relations}
    filtered = {alias: batch.add(_select(query, [alias], _filters(query, alias))) for alias in query.relations}
    pairs = {
        (pair, conditions): _PairSelects.of(query, pair, conditions, batch)
        for graph in graphs.graphs
        for pair, conditions in graph.items()
        if conditions
    }
    batch.ask(database)
    found = Estimates()
    for alias in query.relations:
        found.rows[alias] = batch.rows(alone[alias])
        found.filtered[alias] = min(batch.rows(filtered[alias]), found.rows[alias])
    for key, selects in pairs.items():
        found.fractions[key] = selects.fraction(batch)
    return found


@dataclass(frozen=True)
class _PairSelects:
    """The statements that give the fraction of a pair: both relations joined, and each alone, with what the server
    derives for it from the conditions of the pair."""

    joined: str
    left: str
    right: str

    @classmethod
    def of(cls, query: Query, pair: Pair, conditions: Conditions, batch: _Batch) -> _PairSelects:
        left, right = (
            batch.add(_select(query, [alias], [one_line(node) for node in derived_ors(query.others.get(pair, []), alias)]))
            for alias in pair
        )
        return cls(batch.add(_select(query, list(pair), list(conditions))), left, right)

    def fraction(self, batch: _Batch) -> Fraction:
        return fraction(batch.rows(self.joined), batch.rows(self.left) * batch.rows(self.right))


def fraction(part: int, whole: int) -> Fraction:
    """Part of a whole as a fraction of numbers that a workload may have: 1 ≤ n ≤ d ≤ INPUT_CAP."""
    if whole > INPUT_CAP:
        part, whole = round(part * INPUT_CAP / whole), INPUT_CAP
    return max(1, min(part, whole)), whole


def _filters(query: Query, alias: str) -> list[str]:
    conditions = query.filters[alias] + query.derived_filters(alias)
    return list(dict.fromkeys(one_line(condition) for condition in conditions))


def _select(query: Query, aliases: list[str], conditions: list[str]) -> str:
    relations = ", ".join(one_line(query.relations[alias].node) for alias in aliases)
    where = " AND ".join(f"({condition})" for condition in conditions)
    return f"SELECT FROM {relations}" + (f" WHERE {where}" if where else "")
