"""Draws plans and join graphs by graphviz, as SVG that takes its colours from the page."""

from __future__ import annotations

import re
import subprocess
from collections.abc import Iterable
from math import log10
from typing import Any

from .plans import Plan
from .refusals import Refused

EDGE_WIDTH_MAX = 7.0
ROWS_OF_WIDEST = 1e9
LEAST_SCALE = 0.75

Weighted = tuple[str, str, str]
"""An edge of a join graph: its two relations, and what is written at it."""


def plan_picture(plan: Plan, name: str) -> str:
    """The plan as a tree, in graphviz's language: each join above what it joins, an edge wider for more rows."""
    numbers = {id(node): place for place, node in enumerate(plan.nodes())}
    lines = [f"digraph {_quoted(name)} {{", *_defaults(name), 'layout=dot; ranksep="0.3"; nodesep="0.12"; ordering=out;']
    for node in plan.nodes():
        own = f"n{numbers[id(node)]}"
        shape = "scan" if node.alias is not None else "join"
        lines.append(f'{own} [id="{name}-{own}", class="{shape}", label={_quoted(_label(node))}];')
        for child in node.children:
            width = _width(child.rows)
            below = f"n{numbers[id(child)]}"
            lines.append(f'{own} -> {below} [id="{name}-{own}-{below}", dir=none, penwidth={width:.1f}];')
    return "\n".join([*lines, "}"])


def graph_picture(relations: list[tuple[str, str]], edges: Iterable[Weighted], name: str) -> str:
    """The join graph in graphviz's language: each relation with its label, each edge with its own."""
    numbers = {alias: place for place, (alias, _) in enumerate(relations)}
    lines = [f"graph {_quoted(name)} {{", *_defaults(name), 'layout=neato; overlap=false; splines=true; sep="+12";']
    for alias, label in relations:
        own = f"n{numbers[alias]}"
        lines.append(f'{own} [id="{name}-{own}", class="scan", label={_quoted(label)}];')
    for place, (left, right, label) in enumerate(edges):
        ends = f"n{numbers[left]} -- n{numbers[right]}"
        lines.append(f'{ends} [id="{name}-e{place}", label={_quoted(label)}, len=1.7];')
    return "\n".join([*lines, "}"])


def render(pictures: list[str]) -> list[str]:
    """The SVG of each picture, by one run of graphviz."""
    if not pictures:
        return []
    try:
        done = subprocess.run(["dot", "-Tsvg"], input="\n".join(pictures).encode(), capture_output=True, check=True)
    except FileNotFoundError as error:
        raise Refused("graphviz isn't installed") from error
    except subprocess.CalledProcessError as error:
        raise Refused(f"graphviz: {error.stderr.decode(errors='replace').strip()}") from error
    return [_inline(svg) for svg in re.findall(r"<svg.*?</svg>", done.stdout.decode(), re.DOTALL)]


def _inline(svg: str) -> str:
    """The picture without comments and tooltips, as wide as its place where that leaves it readable."""
    svg = re.sub(r"<!--.*?-->|<title>.*?</title>", "", svg, flags=re.DOTALL)
    size = re.search(r'width="(\d+)pt" height="(\d+)pt"', svg)
    width = round(int(size[1]) * 4 / 3)
    style = f"width: 100%; max-width: {width}px; min-width: {round(width * LEAST_SCALE)}px; height: auto"
    return svg.replace(size[0], f'style="{style}" role="img"', 1)


def _defaults(name: str) -> list[str]:
    font = 'fontname="DejaVu Sans", fontsize=10'
    return [
        f'id="{name}"; bgcolor="transparent"; {font.replace(", ", "; ")};',
        f'node [shape=box, style=rounded, margin="0.07,0.04", height=0.3, {font}];',
        'edge [fontname="DejaVu Sans", fontsize=9];',
    ]


def _label(node: Plan) -> str:
    first = node.operator if node.alias is None else f"{node.operator} {node.alias}"
    cost = "" if node.cost is None else f"\ncost {short(node.cost)}"
    actual = "" if node.actual is None else f"\nactual {short(node.actual)}"
    return f"{first}\n{counted(node.rows)}{actual}{cost}"


def short(number: float) -> str:
    """A number in at most three or four digits with the letter of its thousands."""
    for size, letter in ((1e12, "T"), (1e9, "G"), (1e6, "M"), (1e4, "k")):
        if number >= size:
            shown = number / (1e3 if letter == "k" else size)
            return f"{shown:.0f}{letter}" if shown >= 100 else f"{shown:.1f}{letter}"
    return f"{number:.0f}"


def counted(rows: int) -> str:
    """So many rows, in words."""
    return "1 row" if rows == 1 else f"{short(rows)} rows"


def _width(rows: int) -> float:
    return 0.8 + (EDGE_WIDTH_MAX - 0.8) * min(1.0, log10(max(1, rows)) / log10(ROWS_OF_WIDEST))


def _quoted(text: str) -> str:
    """The text as a string of graphviz, where a backslash would begin an escape."""
    return '"' + text.replace("\\", "\\\\").replace('"', '\\"').replace("\n", "\\n") + '"'


def graph_of_workload(query: dict[str, Any], tables: dict[str, dict[str, Any]], name: str) -> str | None:
    """The join graph of a query of a workload; none where a join has no relation."""
    relations = {relation["alias"]: _relation_label(relation, tables) for relation in query["relations"]}
    own = {relation["alias"]: tables.get(relation["table"], {}) for relation in query["relations"]}
    edges = [(join["left"], join["right"], _edge_label(join, own)) for join in query.get("joins") or []]
    if any(end not in relations for left, right, _ in edges for end in (left, right)):
        return None
    return graph_picture(list(relations.items()), edges, name)


def _relation_label(relation: dict[str, Any], tables: dict[str, dict[str, Any]]) -> str:
    alias, table = relation["alias"], relation["table"]
    name = alias if alias == table.rsplit(".", 1)[-1] else f"{alias} ({table})"
    if table not in tables:
        return name
    rows = tables[table]["rows"]
    kept, of = relation.get("filter") or (1, 1)
    filtered = f" → {short(rows * kept / of)}" if kept != of and of else ""
    return f"{name}\n{short(rows)}{filtered} rows" if filtered else f"{name}\n{counted(rows)}"


def _edge_label(join: dict[str, Any], tables: dict[str, dict[str, Any]]) -> str:
    if join.get("selectivity"):
        part, whole = join["selectivity"]
    else:
        sides = ("left", "right")
        part, whole = 1, max(_distinct(tables.get(join[side], {}), join.get(f"{side}_column")) for side in sides)
    if part == whole:
        return "1"
    return f"1/{short(whole / part)}" if part else f"{part}/{whole}"


def _distinct(table: dict[str, Any], column: str | None) -> int:
    for known in table.get("columns") or []:
        if known["name"] == column:
            return known["distinct"]
    return 1


