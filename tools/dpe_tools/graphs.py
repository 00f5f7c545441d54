"""The join graphs of a statement: one for each way to say its equalities without saying one twice."""

from __future__ import annotations

from dataclasses import dataclass
from itertools import combinations, product
from math import prod

from pglast import ast

from .database import ForeignKey
from .names import Column
from .query import Equals, Pair, Query
from .sql import one_line

GRAPHS_MAX = 128
"""The most join graphs of one statement."""

ALL_TREES_UP_TO = 6
"""Of a class over more relations not all spanning trees are tried."""

Edges = tuple[Pair, ...]


@dataclass(frozen=True)
class Graphs:
    """Some join graphs, the one as written first: for each pair of joined relations the conditions between them.
    A pair without conditions is joined by columns of which a filter has set both to one value."""

    graphs: list[dict[Pair, tuple[str, ...]]]
    all_trees: bool


def join_graphs(query: Query, keys: list[ForeignKey]) -> Graphs:
    """The join graphs that are tried: one for each choice of a spanning tree of each class, where there are at most
    GRAPHS_MAX; else the one as written, and those with the stars of the classes."""
    written = [_tree_as_written(query, equals, _kept(query, keys, equals)) for equals in query.classes]
    whole = [_all_trees(query, keys, equals, tree) for equals, tree in zip(query.classes, written)]
    if all(whole) and prod(len(trees) for trees in whole) <= GRAPHS_MAX:
        return Graphs(_distinct(query, product(*whole)), True)
    return Graphs(_distinct(query, _stars(query, keys, written))[:GRAPHS_MAX], False)


def _all_trees(query: Query, keys: list[ForeignKey], equals: Equals, written: Edges) -> list[Edges]:
    """All spanning trees of a class, the one as written first; none where they aren't all tried."""
    aliases = equals.aliases()
    if equals.constant is not None:
        return [written]
    if len(aliases) > ALL_TREES_UP_TO:
        return []
    kept = set(_kept(query, keys, equals))
    pairs = [query.pair(one, other) for one, other in combinations(aliases, 2)]
    trees = [chosen for chosen in combinations(pairs, len(aliases) - 1) if kept <= set(chosen)]
    trees = [tree for tree in trees if _forest(tree) == tree]
    return [written] + [tree for tree in trees if set(tree) != set(written)]


def _stars(query: Query, keys: list[ForeignKey], written: list[Edges]) -> list[list[Edges]]:
    """The trees as written; then those with the star of one class around one relation; then those in which each
    class that has a relation is its star around it."""
    stars: dict[str, list[Edges]] = {}
    single = []
    for place, equals in enumerate(query.classes):
        if equals.constant is not None:
            continue
        kept = _kept(query, keys, equals)
        for centre in equals.aliases():
            rays = [query.pair(centre, other) for other in equals.aliases() if other != centre]
            star = _forest([*kept, *rays])
            single.append([*written[:place], star, *written[place + 1 :]])
            stars.setdefault(centre, list(written))[place] = star
    return [written, *single, *stars.values()]


def _tree_as_written(query: Query, equals: Equals, kept: Edges) -> Edges:
    pairs = [query.pair(one.alias, other.alias) for one, other in equals.written]
    return _forest([*kept, *pairs])


def _forest(pairs: list[Pair] | Edges) -> Edges:
    """The pairs in order without those that close a cycle."""
    parts: dict[str, frozenset[str]] = {}
    chosen = []
    for one, other in pairs:
        first, second = (parts.get(alias, frozenset([alias])) for alias in (one, other))
        if first != second:
            chosen.append((one, other))
            parts |= dict.fromkeys(first | second, first | second)
    return tuple(chosen)


def _kept(query: Query, keys: list[ForeignKey], equals: Equals) -> Edges:
    """The pairs of a class that are joined by a foreign key of several columns, which the server counts once."""
    found = []
    for one, other in combinations(equals.aliases(), 2):
        for key in keys:
            for from_alias, to_alias in ((one, other), (other, one)):
                members = _key_members(query, key, from_alias, to_alias)
                if any(equals is some for some in members):
                    found.append(query.pair(one, other))
    return _forest(found)


def _key_members(query: Query, key: ForeignKey, from_alias: str, to_alias: str) -> list[Equals]:
    """The classes that join the columns of a foreign key, where all are joined; else none."""
    tables = [query.relations[alias].table for alias in (from_alias, to_alias)]
    if [table.oid for table in tables] != [key.table, key.referenced]:
        return []
    names = [{column.number: column.name for column in table.columns} for table in tables]
    found = []
    for number, other in zip(key.columns, key.referenced_columns):
        ends = (Column(from_alias, names[0][number]), Column(to_alias, names[1][other]))
        joining = [equals for equals in query.classes if set(ends) <= set(equals.members)]
        if not joining:
            return []
        found += joining
    return found


def _distinct(query: Query, choices) -> list[dict[Pair, tuple[str, ...]]]:
    graphs: list[dict[Pair, tuple[str, ...]]] = []
    for trees in choices:
        graph = _graph(query, trees)
        if graph not in graphs:
            graphs.append(graph)
    return graphs


def _graph(query: Query, trees) -> dict[Pair, tuple[str, ...]]:
    """The join graph in which each class has this tree."""
    conditions: dict[Pair, list[ast.Node]] = {pair: list(some) for pair, some in query.others.items()}
    for equals, tree in zip(query.classes, trees):
        for one, other in tree:
            own = conditions.setdefault((one, other), [])
            if equals.constant is None:
                own += equals.between(frozenset([one]), frozenset([other]))[:1]
    return {pair: tuple(one_line(condition) for condition in some) for pair, some in sorted(conditions.items())}
