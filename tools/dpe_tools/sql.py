"""Reads one SELECT by PostgreSQL's own parser and refuses what has no free join order."""

from __future__ import annotations

import copy
from collections.abc import Iterator

from pglast import ast, parse_sql
from pglast.enums import A_Expr_Kind, BoolExprType, JoinType, SetOperation
from pglast.parser import ParseError
from pglast.stream import IndentedStream, RawStream
from pglast.visitors import Visitor

from .refusals import RELATIONS_MAX, Refused

OUTER_JOINS = {
    JoinType.JOIN_LEFT: "LEFT JOIN",
    JoinType.JOIN_RIGHT: "RIGHT JOIN",
    JoinType.JOIN_FULL: "FULL JOIN",
}
OTHER_ITEMS = {
    ast.RangeSubselect: "a subquery in FROM isn't planned",
    ast.RangeFunction: "a function in FROM isn't planned",
    ast.RangeTableFunc: "a function in FROM isn't planned",
    ast.RangeTableSample: "TABLESAMPLE isn't planned",
}


def parse_select(text: str) -> ast.SelectStmt:
    """The one SELECT of the text, where its join order is free to choose."""
    try:
        statements = parse_sql(text)
    except ParseError as error:
        raise Refused(f"not SQL: {error.args[0]}") from error
    if len(statements) != 1:
        raise Refused(f"one statement is wanted, and there are {len(statements)}")
    select = statements[0].stmt
    if not isinstance(select, ast.SelectStmt):
        raise Refused("only a SELECT is planned")
    _refuse_clauses(select)
    _refuse_expressions(select)
    relations = list(relations_of(select))
    if len(relations) > RELATIONS_MAX:
        raise Refused(f"{len(relations)} relations, at most {RELATIONS_MAX}")
    if len(relations) < 2:
        raise Refused("one relation has no join order")
    _refuse_twice([alias_of(relation) for relation in relations])
    return select


def _refuse_clauses(select: ast.SelectStmt) -> None:
    if select.op != SetOperation.SETOP_NONE:
        raise Refused("UNION, INTERSECT and EXCEPT aren't planned")
    if select.withClause:
        raise Refused("WITH isn't planned")
    if select.lockingClause:
        raise Refused("FOR UPDATE and its kin aren't planned")
    if select.intoClause:
        raise Refused("SELECT INTO isn't planned")
    if select.valuesLists:
        raise Refused("VALUES isn't planned")
    if not select.fromClause:
        raise Refused("a SELECT without FROM has no join order")


class _Expressions(Visitor):
    """Refuses the expressions that keep a statement from being planned."""

    def visit_SubLink(self, _ancestors, _node):
        raise Refused("a subquery in an expression isn't planned")

    def visit_ParamRef(self, _ancestors, _node):
        raise Refused("parameters aren't planned: write their values")


def _refuse_expressions(select: ast.SelectStmt) -> None:
    for item in select.fromClause:
        _refuse_item(item)
    _Expressions()(select)


def _refuse_item(item: ast.Node) -> None:
    if isinstance(item, ast.JoinExpr):
        _refuse_join(item)
        _refuse_item(item.larg)
        _refuse_item(item.rarg)
    elif isinstance(item, ast.RangeVar):
        if item.alias and item.alias.colnames:
            raise Refused(f"{alias_of(item)}: other names for its columns aren't planned")
    else:
        if getattr(item, "lateral", False):
            raise Refused("LATERAL isn't planned")
        raise Refused(OTHER_ITEMS.get(type(item), f"{type(item).__name__} in FROM isn't planned"))


def _refuse_join(join: ast.JoinExpr) -> None:
    if join.isNatural:
        raise Refused("NATURAL JOIN isn't planned: write its columns with USING")
    if join.jointype in OUTER_JOINS:
        raise Refused(f"{OUTER_JOINS[join.jointype]} isn't planned: its order isn't free")
    if not join.quals and not join.usingClause:
        raise Refused("CROSS JOIN isn't planned")
    if join.alias or join.join_using_alias:
        raise Refused("an alias for a whole join isn't planned")


def _refuse_twice(aliases: list[str]) -> None:
    for place, alias in enumerate(aliases):
        if alias in aliases[:place]:
            raise Refused(f'"{alias}" names two relations')


def relations_of(select: ast.SelectStmt) -> Iterator[ast.RangeVar]:
    """The relations of FROM as they are written, from left to right."""
    for item in select.fromClause:
        yield from _relations_of_item(item)


def _relations_of_item(item: ast.Node) -> Iterator[ast.RangeVar]:
    if isinstance(item, ast.JoinExpr):
        yield from _relations_of_item(item.larg)
        yield from _relations_of_item(item.rarg)
    elif isinstance(item, ast.RangeVar):
        yield item


def alias_of(relation: ast.RangeVar) -> str:
    """The name by which the statement's expressions call the relation."""
    return relation.alias.aliasname if relation.alias else relation.relname


def conjuncts(condition: ast.Node | None) -> Iterator[ast.Node]:
    """The conditions that AND connects, with comparisons of rows taken apart."""
    if condition is None:
        return
    if isinstance(condition, ast.BoolExpr) and condition.boolop == BoolExprType.AND_EXPR:
        for part in condition.args:
            yield from conjuncts(part)
    elif is_equality(condition) and _are_rows(condition.lexpr, condition.rexpr):
        for left, right in zip(condition.lexpr.args, condition.rexpr.args):
            yield from conjuncts(equality(left, right))
    else:
        yield condition


def bounds(condition: ast.Node) -> list[ast.Node]:
    """The two comparisons of a BETWEEN; of any other condition the condition itself."""
    if not isinstance(condition, ast.A_Expr) or condition.kind != A_Expr_Kind.AEXPR_BETWEEN:
        return [condition]
    low, high = condition.rexpr
    return [_comparison(">=", condition.lexpr, low), _comparison("<=", condition.lexpr, high)]


def _are_rows(left: ast.Node, right: ast.Node) -> bool:
    both = isinstance(left, ast.RowExpr) and isinstance(right, ast.RowExpr)
    return both and len(left.args) == len(right.args)


def _comparison(operator: str, left: ast.Node, right: ast.Node) -> ast.A_Expr:
    return ast.A_Expr(
        kind=A_Expr_Kind.AEXPR_OP, name=(ast.String(sval=operator),), lexpr=left, rexpr=right
    )


def equality(left: ast.Node, right: ast.Node) -> ast.A_Expr:
    """The condition that both are equal."""
    return _comparison("=", left, right)


def is_equality(condition: ast.Node) -> bool:
    """Whether the condition is a comparison by PostgreSQL's own `=`."""
    if not isinstance(condition, ast.A_Expr) or condition.kind != A_Expr_Kind.AEXPR_OP:
        return False
    return [part.sval for part in condition.name] in (["="], ["pg_catalog", "="])


def all_of(conditions: list[ast.Node]) -> ast.Node | None:
    """The conditions connected by AND, none where there are none."""
    if len(conditions) < 2:
        return conditions[0] if conditions else None
    return ast.BoolExpr(boolop=BoolExprType.AND_EXPR, args=tuple(conditions))


def any_of(conditions: list[ast.Node]) -> ast.Node:
    """The conditions connected by OR."""
    if len(conditions) == 1:
        return conditions[0]
    return ast.BoolExpr(boolop=BoolExprType.OR_EXPR, args=tuple(conditions))


def arms(condition: ast.Node) -> tuple[ast.Node, ...]:
    """The conditions that OR connects; none where it isn't an OR."""
    if isinstance(condition, ast.BoolExpr) and condition.boolop == BoolExprType.OR_EXPR:
        return condition.args
    return ()


def is_constant(node: ast.Node) -> bool:
    """Whether the expression is a literal, with or without a cast."""
    if isinstance(node, ast.TypeCast):
        return is_constant(node.arg)
    return isinstance(node, ast.A_Const) and not node.isnull


def one_line(node: ast.Node) -> str:
    """The SQL of a node on one line."""
    return RawStream()(node)


def pretty(select: ast.SelectStmt) -> str:
    """The SQL of a statement over several lines, which reads back as the same statement."""
    for stream in (IndentedStream(comma_at_eoln=True, special_functions=True), RawStream()):
        text = stream(select)
        if parse_sql(text)[0].stmt == select:
            return text
    raise Refused("the statement can't be written back as SQL")


def copied(node: ast.Node) -> ast.Node:
    """A copy of the node that may be changed."""
    return copy.deepcopy(node)
