"""Plans as trees of joins and scans: those that dpe reports, and those that PostgreSQL explains."""

from __future__ import annotations

import re
from collections.abc import Iterator
from dataclasses import dataclass
from typing import Any

JOINS = ("Nested Loop", "Hash Join", "Merge Join")


@dataclass(frozen=True)
class Plan:
    """A node of a plan: a join of two plans, or the scan of a relation."""

    operator: str
    rows: int
    cost: float | None
    alias: str | None = None
    children: tuple[Plan, ...] = ()
    actual: int | None = None

    def aliases(self) -> frozenset[str]:
        """The relations of the plan."""
        own = frozenset([self.alias]) if self.alias is not None else frozenset()
        return own.union(*(child.aliases() for child in self.children))

    def joins(self) -> Iterator[Plan]:
        """The joins of the plan, each after those below it."""
        for child in self.children:
            yield from child.joins()
        if self.children:
            yield self

    def nodes(self) -> Iterator[Plan]:
        """All nodes of the plan, each before those below it."""
        yield self
        for child in self.children:
            yield from child.nodes()


def plan_of_report(node: dict[str, Any]) -> Plan:
    """The plan in a report of dpe."""
    if "alias" in node:
        return Plan("scan", node["rows"], None, node["alias"])
    children = (plan_of_report(node["left"]), plan_of_report(node["right"]))
    return Plan(node["op"], node["rows"], node["cost"], None, children)


def plan_of_explain(node: dict[str, Any], aliases: frozenset[str], share: float = 1.0) -> Plan | None:
    """The joins and scans in a plan of PostgreSQL; none where it has no scan. Rows are those of one
    execution of a node. Below a Gather a node that is shared by workers has the rows of one of them, and `share` is how
    many these are."""
    if node["Node Type"] in ("Gather", "Gather Merge"):
        workers = node["Workers Planned"]
        share = workers + max(0.0, 1 - 0.3 * workers)
    below = [plan_of_explain(child, aliases, share) for child in _inputs(node)]
    children = tuple(plan for plan in below if plan is not None)
    alias = _known_alias(node, aliases) or _one_alias(node, children)
    if alias is None and not (node["Node Type"] in JOINS and len(children) == 2):
        return children[0] if children else None
    shared = _is_shared(node)
    rows = round(node["Plan Rows"] * (share if shared else 1))
    actual = round(node["Actual Rows"] * (node["Actual Loops"] if shared else 1)) if "Actual Rows" in node else None
    return Plan(node["Node Type"], rows, node["Total Cost"], alias, () if alias else children, actual)


def _inputs(node: dict[str, Any]) -> list[dict[str, Any]]:
    """The nodes whose rows the node takes."""
    return [child for child in node.get("Plans", []) if child.get("Parent Relationship") not in ("InitPlan", "SubPlan")]


def _known_alias(node: dict[str, Any], aliases: frozenset[str]) -> str | None:
    """The relation that the node scans; a partition has the alias of its table with a number."""
    alias = node.get("Alias")
    if alias is None or alias in aliases:
        return alias
    whole = re.sub(r"_\d+$", "", alias)
    return whole if whole in aliases else None


def _one_alias(node: dict[str, Any], children: tuple[Plan, ...]) -> str | None:
    """The relation whose partitions the node appends."""
    found = {child.alias for child in children}
    return found.pop() if node["Node Type"] in ("Append", "Merge Append") and len(found) == 1 else None


def _is_shared(node: dict[str, Any]) -> bool:
    if node["Node Type"] in ("Gather", "Gather Merge"):
        return False
    inputs = _inputs(node)
    return _is_shared(inputs[0]) if inputs and node["Node Type"] != "Bitmap Heap Scan" else node["Parallel Aware"]
