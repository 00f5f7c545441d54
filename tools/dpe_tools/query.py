"""A statement as relations and conditions: filters, conditions between two relations, and classes of equal columns."""

from __future__ import annotations

from dataclasses import dataclass, field

from pglast import ast

from .database import Database
from .names import Column, From, Outside, Relation, aliases_in
from .refusals import Refused
from .sql import all_of, any_of, arms, conjuncts, equality, is_constant, is_equality, one_line

Pair = tuple[str, str]
"""The aliases of two relations, in the order of FROM."""


@dataclass
class Equals:
    """A class of columns that the conditions make equal, with the equalities that are written and its constant."""

    members: list[Column] = field(default_factory=list)
    written: list[tuple[Column, Column]] = field(default_factory=list)
    constant: ast.Node | None = None

    def aliases(self) -> list[str]:
        """The relations that have a member, each once."""
        return list(dict.fromkeys(member.alias for member in self.members))

    def between(self, left: frozenset[str], right: frozenset[str]) -> list[ast.Node]:
        """The equalities that join two sets of relations: those that are written, else one that follows."""
        written = [pair for pair in self.written if _crosses(pair, left, right)]
        if not written:
            first = [member for member in self.members if member.alias in left]
            second = [member for member in self.members if member.alias in right]
            written = list(zip(first[:1], second[:1]))
        return [equality(one.node(), other.node()) for one, other in written]


def _crosses(pair: tuple[Column, Column], left: frozenset[str], right: frozenset[str]) -> bool:
    one, other = pair[0].alias, pair[1].alias
    return (one in left and other in right) or (one in right and other in left)


@dataclass
class Query:
    """A statement whose join order is to be chosen."""

    relations: dict[str, Relation]
    outside: ast.SelectStmt
    filters: dict[str, list[ast.Node]]
    others: dict[Pair, list[ast.Node]]
    classes: list[Equals]
    wide: list[tuple[frozenset[str], ast.Node]]
    free: list[ast.Node]

    def pair(self, one: str, other: str) -> Pair:
        """The two aliases in the order of FROM."""
        order = list(self.relations)
        return (one, other) if order.index(one) < order.index(other) else (other, one)

    def derived_filters(self, alias: str) -> list[ast.Node]:
        """What the server derives for one relation: from a class with a constant, from two columns of one class, and
        from the ORs over several relations."""
        found = []
        for equals in self.classes:
            own = [member for member in equals.members if member.alias == alias]
            if equals.constant is not None:
                found += [equality(member.node(), equals.constant) for member in own]
            else:
                found += [equality(own[0].node(), other.node()) for other in own[1:]]
        wide = [condition for aliases, condition in self.wide if alias in aliases]
        pairs = [condition for pair, some in self.others.items() if alias in pair for condition in some]
        return found + derived_ors(wide + pairs, alias)


def derived_ors(conditions: list[ast.Node], alias: str) -> list[ast.Node]:
    """For each OR whose every arm has conditions on this relation alone, the OR of these."""
    found = []
    for condition in conditions:
        own = [[part for part in conjuncts(arm) if aliases_in(part) == {alias}] for arm in arms(condition)]
        if own and all(own):
            found.append(any_of([all_of(parts) for parts in own]))
    return found


def read_query(select: ast.SelectStmt, database: Database, output_names: list[str]) -> Query:
    """The relations and conditions of a statement that the server has accepted."""
    source = From(select, database)
    relations = {relation.alias: relation for relation in source.relations}
    outside = Outside(select, source.scope, output_names).select
    query = Query(relations, outside, {alias: [] for alias in relations}, {}, [], [], [])
    equalities: list[tuple[Column, Column]] = []
    for condition in source.conditions:
        columns = _equal_columns(condition, relations)
        if columns:
            equalities.append(columns)
        else:
            _place(condition, query)
    query.classes = _classes(equalities)
    for equals in query.classes:
        equals.constant = _constant(equals, query.filters)
    _refuse_unconnected(query)
    return query


def _place(condition: ast.Node, query: Query) -> None:
    aliases = aliases_in(condition)
    if not aliases:
        query.free.append(condition)
    elif len(aliases) == 1:
        query.filters[min(aliases)].append(condition)
    elif len(aliases) == 2:
        query.others.setdefault(query.pair(*sorted(aliases)), []).append(condition)
    else:
        query.wide.append((aliases, condition))


def _column(node: ast.Node, relations: dict[str, Relation]) -> tuple[Column, object] | None:
    """A column that stands alone, with the family of its type."""
    if not isinstance(node, ast.ColumnRef) or len(node.fields) != 2 or isinstance(node.fields[1], ast.A_Star):
        return None
    column = Column(node.fields[0].sval, node.fields[1].sval)
    for known in relations[column.alias].table.columns:
        if known.name == column.name and known.family:
            return column, known.family
    return None


def _equal_columns(condition: ast.Node, relations: dict[str, Relation]) -> tuple[Column, Column] | None:
    """The two columns of an equality that may be carried over to other columns."""
    if not is_equality(condition):
        return None
    left, right = _column(condition.lexpr, relations), _column(condition.rexpr, relations)
    if not left or not right or left[1] != right[1] or left[0].alias == right[0].alias:
        return None
    return left[0], right[0]


def _classes(equalities: list[tuple[Column, Column]]) -> list[Equals]:
    classes: list[Equals] = []
    for one, other in equalities:
        touched = [equals for equals in classes if one in equals.members or other in equals.members]
        classes = [equals for equals in classes if equals not in touched]
        members = [member for equals in touched for member in equals.members] + [one, other]
        written = [pair for equals in touched for pair in equals.written] + [(one, other)]
        classes.append(Equals(list(dict.fromkeys(members)), written))
    return classes


def _constant(equals: Equals, filters: dict[str, list[ast.Node]]) -> ast.Node | None:
    """The literal to which a filter sets a member of the class."""
    members = {one_line(member.node()) for member in equals.members}
    for alias in equals.aliases():
        for condition in filters[alias]:
            if is_equality(condition):
                for column, value in ((condition.lexpr, condition.rexpr), (condition.rexpr, condition.lexpr)):
                    if is_constant(value) and one_line(column) in members:
                        return value
    return None


def _refuse_unconnected(query: Query) -> None:
    reached = {next(iter(query.relations))}
    groups = [frozenset(equals.aliases()) for equals in query.classes] + [frozenset(pair) for pair in query.others]
    grown = True
    while grown:
        joined = frozenset().union(*(group for group in groups if group & reached)) - reached
        grown = bool(joined)
        reached |= joined
    missing = [alias for alias in query.relations if alias not in reached]
    if missing:
        wide = any(missing[0] in aliases for aliases, _ in query.wide)
        how = "joined only by a condition over three or more" if wide else "not joined to the others (a cross join)"
        raise Refused(f'relation "{missing[0]}" is {how}')
