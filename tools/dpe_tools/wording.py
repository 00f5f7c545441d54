"""An advice in words: the verdict, the statement, the hint, and the rows of each join."""

from __future__ import annotations

from .advice import AS_WRITTEN, Advice, is_cheaper
from .rewrite import leading


def text_of(advice: Advice) -> str:
    """The advice as a text, the verdict first."""
    parts = ["\n".join(verdict_lines(advice))]
    if advice.is_better:
        parts.append(sql_of(advice))
        parts.append(_hint(advice))
    parts.append("\n".join(table_of_joins(advice)))
    if advice.notes:
        parts.append("\n".join(advice.notes))
    return "\n\n".join(parts) + "\n"


def verdict_lines(advice: Advice) -> list[str]:
    """The verdict in PostgreSQL's own numbers, and what a full search would give."""
    order, default = advice.order.explained, advice.default
    verdict = "better" if advice.is_better else "keep the default"
    lines = [f"default {default.cost:.0f}, this order {order.cost:.0f}: {verdict}", _full_search_line(advice)]
    lines.append(f"planning: default {default.planning:.1f} ms, this order {order.planning:.1f} ms")
    if default.execution is not None and order.execution is not None:
        lines.append(f"execution: default {default.execution:.1f} ms, this order {order.execution:.1f} ms")
    return lines


def _full_search_line(advice: Advice) -> str:
    limits = f"join_collapse_limit and from_collapse_limit at {len(advice.query.relations)}, geqo off"
    if advice.full is None:
        return f"full search ({limits}): not planned within {advice.full_search_seconds:g} s"
    line = f"full search ({limits}): {advice.full.cost:.0f}, planned in {advice.full.planning:.0f} ms"
    if not advice.is_better:
        return line + (": these settings alone are better" if advice.full_is_as_good else ": nothing to gain")
    if not advice.full_is_as_good:
        return line + ": not as cheap as this order"
    better_still = is_cheaper(advice.full.cost, advice.order.explained.cost)
    return line + (": these settings alone are better still" if better_still else ": these settings alone give the same")


def sql_of(advice: Advice) -> str:
    """The statement ready to paste."""
    settings = "\n".join(f"SET LOCAL {name} = {value};" for name, value in AS_WRITTEN.items())
    return f"BEGIN;\n{settings}\n{advice.order.sql};\nCOMMIT;"


def hint_of(advice: Advice) -> str:
    """The hint with the sides that PostgreSQL chooses for the order."""
    chosen = advice.order.explained.plan
    whole = chosen is not None and chosen.aliases() == advice.order.plan.aliases()
    return leading(chosen if whole else advice.order.plan)


def _hint(advice: Advice) -> str:
    limit = len(advice.query.relations)
    return (
        f"-- or by pg_hint_plan, before the statement as it was, with both collapse limits at {limit} or more and geqo off:\n"
        f"{hint_of(advice)}"
    )


def join_rows(advice: Advice) -> list[tuple[str, int, int | None, int | None]]:
    """For each join of the order its relations, and its rows by dpe, by PostgreSQL, and as they were."""
    explained = advice.order.explained.plan
    theirs = {plan.aliases(): plan for plan in explained.joins()} if explained else {}
    found = []
    for join in advice.order.plan.joins():
        other = theirs.get(join.aliases())
        names = " ".join(alias for alias in advice.query.relations if alias in join.aliases())
        found.append((names, join.rows, other.rows if other else None, other.actual if other else None))
    return found


def table_of_joins(advice: Advice) -> list[str]:
    """The lines of the table of each join's rows."""
    rows = join_rows(advice)
    with_actual = any(actual is not None for *_, actual in rows)
    lines = [("dpe", "PostgreSQL", *(("actual",) if with_actual else ()), "rows of the join of")]
    for names, own, theirs, actual in rows:
        numbers = [own, theirs] + ([actual] if with_actual else [])
        lines.append((*("-" if number is None else str(number) for number in numbers), names))
    widths = [max(len(line[place]) for line in lines) for place in range(len(lines[0]) - 1)]
    return ["  ".join([*(cell.rjust(width) for cell, width in zip(line, widths)), line[-1]]) for line in lines]
