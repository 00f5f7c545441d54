"""Pages with plans and join graphs: one file, without a script and without the network."""

from __future__ import annotations

from dataclasses import dataclass
from html import escape
from typing import Any

from .advice import Advice
from .draw import counted, graph_of_workload, plan_picture, render, short
from .plans import Plan, plan_of_report
from .refusals import Refused
from .wording import hint_of, join_rows, sql_of, verdict_lines

STYLE = """
:root { color-scheme: light dark; --ground: #fcfcfb; --ink: #1c1f23; --quiet: #5b6470; --line: #c9ced6;
  --join: #e5eefb; --scan: #eef3ea; --edge: #7d8794; --good: #1b6e3c; }
@media (prefers-color-scheme: dark) { :root { --ground: #15181c; --ink: #e6e9ed; --quiet: #9aa4b1; --line: #3a414b;
  --join: #1f3350; --scan: #24362a; --edge: #8e99a8; --good: #6fcf97; } }
* { box-sizing: border-box; }
body { margin: 0 auto; max-width: 96rem; padding: 1rem; background: var(--ground); color: var(--ink);
  font: 1rem/1.5 system-ui, "DejaVu Sans", sans-serif; }
h1 { font-size: 1.5rem; } h2 { font-size: 1.2rem; margin-top: 2.5rem; border-top: 1px solid var(--line); padding-top: 1rem; }
h3 { font-size: 1rem; margin-bottom: .25rem; }
p { margin: .25rem 0; } .quiet { color: var(--quiet); } .verdict { font-size: 1.15rem; font-weight: 600; } .better { color: var(--good); }
.columns { display: flex; flex-wrap: wrap; gap: 1rem; } .columns > div { flex: 1 1 20rem; min-width: 0; }
.picture, pre, .table { overflow-x: auto; border: 1px solid var(--line); border-radius: .4rem; padding: .5rem; }
.picture svg { display: block; margin: 0 auto; }
pre { font: .85rem/1.4 ui-monospace, "DejaVu Sans Mono", monospace; }
table { border-collapse: collapse; font-size: .9rem; } th, td { padding: .2rem .6rem; text-align: left; vertical-align: top; }
th.number, td.number { text-align: right; font-variant-numeric: tabular-nums; white-space: nowrap; }
svg text { fill: var(--ink); } svg .edge path { stroke: var(--edge); }
svg .join path { fill: var(--join); stroke: var(--edge); } svg .scan path { fill: var(--scan); stroke: var(--edge); }
ul.plan, ul.plan ul { list-style: none; margin: 0; padding-left: .8rem; border-left: 1px solid var(--line); font-size: .9rem; }
details { margin: .5rem 0; } summary { cursor: pointer; color: var(--quiet); }
"""


@dataclass(frozen=True)
class Figure:
    """A picture with its heading, and the same said in words."""

    heading: str
    picture: str
    words: str = ""


def page(title: str, body: str) -> str:
    """A whole page."""
    return (
        '<!doctype html>\n<html lang="en">\n<head>\n<meta charset="utf-8">\n'
        '<meta name="viewport" content="width=device-width, initial-scale=1">\n'
        f"<title>{escape(title)}</title>\n<style>{STYLE}</style>\n</head>\n"
        f"<body>\n<h1>{escape(title)}</h1>\n{body}\n</body>\n</html>\n"
    )


def page_of_report(report: dict[str, Any], workload: dict[str, Any] | None) -> str:
    """A page with the plans of a report, and with their join graphs where the workload is given."""
    tables = {table["name"]: table for table in (workload or {}).get("tables", [])}
    queries = workload["queries"] if workload else [None] * len(report["queries"])
    if workload and [query["name"] for query in queries] != [entry["name"] for entry in report["queries"]]:
        raise Refused("the workload has other queries than the report")
    figures = [_figures(place, *pair, tables) for place, pair in enumerate(zip(report["queries"], queries))]
    drawn = iter(render([figure.picture for some in figures for figure in some]))
    parts = []
    for entry, some in zip(report["queries"], figures):
        parts.append(f"<h2>{escape(entry['name'])}</h2>\n{_summary(entry)}")
        parts.append(_columns([_figure_html(figure, next(drawn)) for figure in some]))
    return page("Plans of dpe", "\n".join(parts))


def _figures(place: int, entry: dict[str, Any], query: dict[str, Any] | None, tables: dict[str, Any]) -> list[Figure]:
    figures = []
    if "plan" in entry:
        plan = plan_of_report(entry["plan"])
        figures.append(Figure("Plan", plan_picture(plan, f"p{place}"), _plan_words(plan)))
    graph = graph_of_workload(query, tables, f"g{place}") if query else None
    return figures + ([Figure("Join graph", graph)] if graph else [])


def _summary(entry: dict[str, Any]) -> str:
    if "plan" not in entry:
        return f"<p>Refused: {escape(entry['refusal'])}</p>"
    numbers = f"cost {entry['cost']}, {entry['rows']} rows, {entry['pairs']} pairs of connected sets"
    return f'<p class="quiet">{numbers}</p>'


def _columns(parts: list[str]) -> str:
    return '<div class="columns">\n' + "\n".join(f"<div>{part}</div>" for part in parts) + "\n</div>"


def _figure_html(figure: Figure, svg: str) -> str:
    words = f"<details><summary>In words</summary>{figure.words}</details>" if figure.words else ""
    label = escape(figure.heading, quote=True)
    return f'<h3>{label}</h3>\n<div class="picture" tabindex="0" aria-label="{label}">{svg}</div>\n{words}'


def _plan_words(plan: Plan) -> str:
    return f'<ul class="plan">{_item(plan)}</ul>'


def _item(plan: Plan) -> str:
    name = plan.operator if plan.alias is None else f"{plan.operator} {plan.alias}"
    cost = "" if plan.cost is None else f", cost {short(plan.cost)}"
    below = "".join(_item(child) for child in plan.children)
    return f"<li>{escape(name)}: {counted(plan.rows)}{cost}" + (f"<ul>{below}</ul>" if below else "") + "</li>"


def page_of_advice(advice: Advice) -> str:
    """A page with the verdict, both plans beside each other, the join graph, the SQL and the rows of each join."""
    figures = []
    for heading, plan in (("PostgreSQL's default", advice.default.plan), ("This order", advice.order.explained.plan)):
        if plan:
            figures.append(Figure(heading, plan_picture(plan, f"p{len(figures)}"), _plan_words(plan)))
    chosen = next(query for query in advice.workload["queries"] if query["name"] == advice.order.graph)
    tables = {table["name"]: table for table in advice.workload["tables"]}
    graph = Figure("Join graph", graph_of_workload(chosen, tables, "g0"))
    drawn = render([figure.picture for figure in [*figures, graph]])
    parts = [_verdict(advice), _columns([_figure_html(*pair) for pair in zip(figures, drawn)])]
    if advice.is_better:
        parts.append(f"<h2>The statement</h2>\n<pre>{escape(sql_of(advice))}</pre>")
        parts.append(f"<h3>As a hint for pg_hint_plan</h3>\n<pre>{escape(hint_of(advice))}</pre>")
    parts.append(f"<h2>Estimates</h2>\n{_figure_html(graph, drawn[-1])}\n<h3>Rows of each join</h3>\n{_table(advice)}")
    parts += [f'<p class="quiet">{escape(note)}</p>' for note in advice.notes]
    return page("Advice on a join order", "\n".join(parts))


def _verdict(advice: Advice) -> str:
    first, *others = verdict_lines(advice)
    classes = "verdict better" if advice.is_better else "verdict"
    return f'<p class="{classes}">{escape(first)}</p>\n' + "\n".join(f'<p class="quiet">{escape(line)}</p>' for line in others)


def _table(advice: Advice) -> str:
    rows = join_rows(advice)
    with_actual = any(actual is not None for *_, actual in rows)
    heads = ["dpe", "PostgreSQL"] + (["actual"] if with_actual else [])
    lines = ["<tr>" + "".join(f'<th class="number">{head}</th>' for head in heads) + "<th>relations</th></tr>"]
    for names, *numbers in rows:
        cells = ["–" if number is None else str(number) for number in numbers[: len(heads)]]
        cells = [f'<td class="number">{cell}</td>' for cell in cells]
        lines.append("<tr>" + "".join(cells) + f"<td>{escape(names)}</td></tr>")
    return '<div class="table"><table>' + "\n".join(lines) + "</table></div>"
