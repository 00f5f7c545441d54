"""Writes a join order as SQL, and as a hint for pg_hint_plan."""

from __future__ import annotations

from pglast import ast
from pglast.enums import JoinType

from .plans import Plan
from .query import Query
from .sql import all_of, copied


def rewritten(query: Query, plan: Plan) -> ast.SelectStmt:
    """The statement with its relations joined in the plan's order by nested joins. It has every condition that was
    written, and where a join would have none of them, an equality that follows from these."""
    select = copied(query.outside)
    select.fromClause = (_item(query, plan),)
    filters = [condition for alias in query.relations for condition in query.filters[alias]]
    where = all_of(filters + query.free)
    select.whereClause = copied(where) if where else None
    return select


def _item(query: Query, plan: Plan) -> ast.Node:
    if plan.alias is not None:
        return copied(query.relations[plan.alias].node)
    left, right = plan.children
    conditions = _conditions(query, left.aliases(), right.aliases())
    quals = copied(all_of(conditions))
    return ast.JoinExpr(
        jointype=JoinType.JOIN_INNER, isNatural=False, larg=_item(query, left), rarg=_item(query, right),
        quals=quals, rtindex=0,
    )


def _conditions(query: Query, left: frozenset[str], right: frozenset[str]) -> list[ast.Node]:
    """The conditions that can first be applied where the two sets are joined."""
    found = [condition for equals in query.classes for condition in equals.between(left, right)]
    wide = [(frozenset(pair), condition) for pair, some in query.others.items() for condition in some] + query.wide
    both = left | right
    for aliases, condition in wide:
        if aliases <= both and not aliases <= left and not aliases <= right:
            found.append(condition)
    return found


def leading(plan: Plan) -> str:
    """The hint by which pg_hint_plan takes the plan's order and sides."""
    return f"/*+ Leading({_order(plan)}) */"


def _order(plan: Plan) -> str:
    if plan.alias is not None:
        return _hint_name(plan.alias)
    outer, inner = plan.children
    return f"({_order(outer)} {_order(inner)})"


def _hint_name(alias: str) -> str:
    plain = alias.replace("_", "a").isalnum() and alias == alias.lower() and not alias[0].isdigit()
    return alias if plain else '"' + alias.replace('"', '""') + '"'
