"""Writes the join graphs of a statement as a workload for dpe."""

from __future__ import annotations

from typing import Any

from .estimates import Estimates, Fraction
from .graphs import Graphs
from .query import Query
from .refusals import Refused

NAME_BYTES_MAX = 128


def workload_of(query: Query, graphs: Graphs, estimates: Estimates) -> dict[str, Any]:
    """The workload: one query for each join graph, and one table for each table of the statement."""
    names = {alias: _table_name(query, alias) for alias in query.relations}
    tables = {names[alias]: estimates.rows[alias] for alias in query.relations}
    relations = [_relation(alias, names[alias], estimates) for alias in query.relations]
    queries = []
    for place, graph in enumerate(graphs.graphs):
        joins = [
            {"left": left, "right": right, "selectivity": list(_fraction(estimates, (left, right), conditions))}
            for (left, right), conditions in graph.items()
        ]
        name = "as written" if place == 0 else f"with implied equalities {place}"
        queries.append({"name": name, "relations": relations, "joins": joins})
    return {"tables": [{"name": name, "rows": rows} for name, rows in tables.items()], "queries": queries}


def _table_name(query: Query, alias: str) -> str:
    relation = query.relations[alias]
    name = f"{relation.table.schema}.{relation.table.name}" + ("" if relation.node.inh else " only")
    for text in (alias, name):
        if not is_name(text):
            raise Refused(f"the name {text!r} has a control character or more than {NAME_BYTES_MAX} bytes")
    return name


def is_name(text: str) -> bool:
    """Whether a workload may have the name."""
    plain = all(character >= " " and character != "\x7f" for character in text)
    return plain and 0 < len(text.encode()) <= NAME_BYTES_MAX


def _relation(alias: str, table: str, estimates: Estimates) -> dict[str, Any]:
    rows, filtered = estimates.rows[alias], estimates.filtered[alias]
    relation: dict[str, Any] = {"alias": alias, "table": table}
    return relation | ({"filter": [filtered, rows]} if filtered < rows else {})


def _fraction(estimates: Estimates, pair: tuple[str, str], conditions: tuple[str, ...]) -> Fraction:
    return estimates.fractions[pair, conditions] if conditions else (1, 1)
