"""Resolves the names of a statement as PostgreSQL does, so that each column is written with its relation's alias."""

from __future__ import annotations

from collections.abc import Iterator
from dataclasses import dataclass

from pglast import ast
from pglast.visitors import Visitor

from .database import Database, Table
from .refusals import Refused
from .sql import alias_of, bounds, conjuncts, copied, equality, one_line


@dataclass(frozen=True)
class Column:
    """A column of a relation of the statement."""

    alias: str
    name: str

    def node(self) -> ast.ColumnRef:
        """The column as an expression."""
        return ast.ColumnRef(fields=(ast.String(sval=self.alias), ast.String(sval=self.name)))


@dataclass(frozen=True)
class Relation:
    """A relation of the statement, and its table."""

    alias: str
    node: ast.RangeVar
    table: Table


@dataclass(frozen=True)
class Scope:
    """What an expression sees: the relations by alias, and the columns that it may name without an alias."""

    relations: dict[str, Relation]
    columns: tuple[tuple[str, Column], ...]

    def by_name(self, name: str) -> Column | None:
        """The column of this name alone."""
        found = [column for shown, column in self.columns if shown == name]
        if len(found) > 1:
            raise Refused(f'column "{name}" is ambiguous')
        return found[0] if found else None


class _Qualifier(Visitor):
    """Writes each column with its alias."""

    def __init__(self, scope: Scope) -> None:
        self._scope = scope

    def visit_ColumnRef(self, _ancestors, node):
        if isinstance(node.fields[-1], ast.A_Star):
            return None
        names = [field.sval for field in node.fields]
        if len(names) > 1:
            return Column(self._alias(names[:-1]), names[-1]).node()
        column = self._scope.by_name(names[0])
        if column:
            return column.node()
        if names[0] in self._scope.relations:
            return None
        raise Refused(f'no column "{names[0]}"')

    def _alias(self, names: list[str]) -> str:
        relation = self._scope.relations.get(names[-1])
        if relation is None:
            raise Refused(f'no relation "{names[-1]}"')
        return relation.alias


class _Aliases(Visitor):
    """Collects the aliases of an expression whose columns have them."""

    def __init__(self) -> None:
        self.found: set[str] = set()

    def visit_ColumnRef(self, _ancestors, node):
        self.found.add(node.fields[0 if len(node.fields) < 3 else -2].sval)


def qualified(node: ast.Node, scope: Scope) -> ast.Node:
    """A copy of the expression with each column written with its alias."""
    holder = ast.ResTarget(val=copied(node))
    _Qualifier(scope)(holder)
    return holder.val


def aliases_in(node: ast.Node) -> frozenset[str]:
    """The relations that a qualified expression reads."""
    visitor = _Aliases()
    visitor(ast.ResTarget(val=node))
    return frozenset(visitor.found)


class From:
    """The FROM of a statement: its relations, its conditions with qualified columns, and what the other clauses see."""

    def __init__(self, select: ast.SelectStmt, database: Database) -> None:
        self._database = database
        self.relations: list[Relation] = []
        self.conditions: list[ast.Node] = []
        scopes = [self._item(item) for item in select.fromClause]
        self.scope = _joined_scope(scopes)
        self._add(select.whereClause, self.scope)

    def _add(self, condition: ast.Node | None, scope: Scope) -> None:
        for part in conjuncts(condition):
            part = qualified(part, scope)
            self.conditions += bounds(part) if len(aliases_in(part)) > 1 else [part]

    def _item(self, item: ast.Node) -> Scope:
        if isinstance(item, ast.JoinExpr):
            return self._join(item)
        return self._relation(item)

    def _relation(self, node: ast.RangeVar) -> Scope:
        name = copied(node)
        name.alias, name.inh = None, True
        relation = Relation(alias_of(node), node, self._database.table(one_line(name)))
        self.relations.append(relation)
        shown = [column.name for column in relation.table.columns if column.number > 0]
        columns = tuple((name, Column(relation.alias, name)) for name in shown)
        return Scope({relation.alias: relation}, columns)

    def _join(self, join: ast.JoinExpr) -> Scope:
        left, right = self._item(join.larg), self._item(join.rarg)
        scope = _joined_scope([left, right])
        if not join.usingClause:
            self._add(join.quals, scope)
            return scope
        names = [name.sval for name in join.usingClause]
        merged = tuple((name, self._merged(name, left, right)) for name in names)
        rest = tuple(shown for shown in scope.columns if shown[0] not in names)
        return Scope(scope.relations, merged + rest)

    def _merged(self, name: str, left: Scope, right: Scope) -> Column:
        first, second = left.by_name(name), right.by_name(name)
        if not first or not second:
            raise Refused(f'no column "{name}" on both sides of USING')
        self.conditions.append(equality(first.node(), second.node()))
        types = [column_type(column, {**left.relations, **right.relations}) for column in (first, second)]
        if types[0] == types[1] or self._database.common_type(*types) == types[0]:
            return first
        return second


def _joined_scope(scopes: list[Scope]) -> Scope:
    relations = {alias: relation for scope in scopes for alias, relation in scope.relations.items()}
    return Scope(relations, tuple(column for scope in scopes for column in scope.columns))


def column_type(column: Column, relations: dict[str, Relation]) -> int:
    """The type of a column, as the catalogue numbers it."""
    for known in relations[column.alias].table.columns:
        if known.name == column.name:
            return known.type
    raise Refused(f"no column {column.alias}.{column.name}")


class Outside:
    """The clauses around FROM and WHERE, with each column written with its alias."""

    def __init__(self, select: ast.SelectStmt, scope: Scope, output_names: list[str]) -> None:
        self._scope = scope
        self._output_names = output_names
        self.select = copied(select)
        self.select.fromClause = self.select.whereClause = None
        self.select.targetList = tuple(self._targets(select))
        self.select.groupClause = self._each(self.select.groupClause, self._grouped)
        self.select.distinctClause = self._each(self.select.distinctClause, self._sorted)
        self.select.sortClause = self._each(self.select.sortClause, self._sort)
        for clause in ("havingClause", "limitCount", "limitOffset"):
            node = getattr(self.select, clause)
            setattr(self.select, clause, qualified(node, scope) if node else None)
        self.select.windowClause = self._each(self.select.windowClause, lambda node: qualified(node, scope))

    def _targets(self, select: ast.SelectStmt) -> Iterator[ast.ResTarget]:
        for target in select.targetList or ():
            if _is_star(target.val):
                yield from (ast.ResTarget(val=column.node()) for _, column in self._scope.columns)
            else:
                yield qualified(target, self._scope)

    def _each(self, nodes, change):
        return tuple(change(node) if node is not None else None for node in nodes) if nodes else nodes

    def _grouped(self, node: ast.Node) -> ast.Node:
        if _bare_name(node) and self._scope.by_name(_bare_name(node)) is None:
            return node
        return qualified(node, self._scope)

    def _sorted(self, node: ast.Node) -> ast.Node:
        return node if _bare_name(node) in self._output_names else qualified(node, self._scope)

    def _sort(self, node: ast.SortBy) -> ast.SortBy:
        node.node = self._sorted(node.node)
        return node


def _bare_name(node: ast.Node) -> str | None:
    """The name of a column that is written without an alias."""
    if isinstance(node, ast.ColumnRef) and len(node.fields) == 1 and isinstance(node.fields[0], ast.String):
        return node.fields[0].sval
    return None


def _is_star(node: ast.Node) -> bool:
    return isinstance(node, ast.ColumnRef) and len(node.fields) == 1 and isinstance(node.fields[0], ast.A_Star)
