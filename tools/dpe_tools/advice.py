"""From a statement to an advice: dpe's order, judged by PostgreSQL's own estimates."""

from __future__ import annotations

from dataclasses import dataclass, field
from typing import Any

from .database import Database
from .estimates import estimate
from .graphs import GRAPHS_MAX, join_graphs
from .planner import plan_workload
from .plans import Plan, plan_of_explain, plan_of_report
from .query import Query, read_query
from .refusals import Refused
from .rewrite import rewritten
from .sql import one_line, parse_select, pretty
from .workload import workload_of

MODELS = {"ops": ("ops",), "cout": ("cout",), "best": ("ops", "cout")}
"""The models of dpe that are tried by the choice of a user."""

BETTER_BY = 0.01
"""The part of the default's cost by which an order must be cheaper."""

AS_WRITTEN = {"join_collapse_limit": "1"}
"""The settings under which PostgreSQL joins in the order in which a statement is written."""

ORDERS_MAX = 4
"""How many orders of a model the server judges: that of the join graph as written, and the cheapest of the others."""

PAIRS_MAX = 20_000_000
"""How many pairs of connected sets dpe may go through for one model, where one join graph alone hasn't more."""

DOUBTFUL_BELOW = 0.5
"""An order of which PostgreSQL expects fewer rows than this part of the default's is costed too low: the rows are the same."""

RUNS = 2
"""How often a statement is run for its time, of which the least counts."""


@dataclass(frozen=True)
class Options:
    """What a user may choose."""

    model: str = "best"
    analyze: bool = False
    full_search_seconds: float = 1.0


@dataclass(frozen=True)
class Explained:
    """What PostgreSQL says of a statement under some settings: costs in its units, times in milliseconds."""

    cost: float
    planning: float
    plan: Plan | None
    execution: float | None = None

    @classmethod
    def of(cls, answer: dict[str, Any], query: Query) -> Explained:
        """From the JSON of EXPLAIN."""
        plan = plan_of_explain(answer["Plan"], frozenset(query.relations))
        return cls(answer["Plan"]["Total Cost"], answer["Planning Time"], plan, answer.get("Execution Time"))


@dataclass(frozen=True)
class Order:
    """A join order of dpe, as SQL, with PostgreSQL's plan for it."""

    model: str
    graph: str
    plan: Plan
    sql: str
    explained: Explained


def is_doubtful(order: Explained, default: Explained) -> bool:
    """Whether PostgreSQL expects so many fewer rows of an order than of the default that their costs don't compare."""
    if order.plan is None or default.plan is None or order.plan.aliases() != default.plan.aliases():
        return False
    return order.plan.rows < default.plan.rows * DOUBTFUL_BELOW


def doubts(order: Explained, default: Explained) -> list[str]:
    """The warning where an order is costed too low."""
    if not is_doubtful(order, default):
        return []
    rows = f"{order.plan.rows} rows of this order and {default.plan.rows} of the default"
    return [f"doubtful: PostgreSQL expects {rows}, so its costs hardly compare: try --analyze"]


@dataclass
class Advice:
    """The best order of dpe beside the default and the full search of PostgreSQL."""

    query: Query
    workload: dict[str, Any]
    default: Explained
    order: Order
    full: Explained | None
    full_search_seconds: float
    notes: list[str] = field(default_factory=list)

    @property
    def is_better(self) -> bool:
        """Whether PostgreSQL itself expects the order to be cheaper, by more than a rounding."""
        return is_cheaper(self.order.explained.cost, self.default.cost)

    @property
    def full_is_as_good(self) -> bool:
        """Whether a full search is cheaper than the default, and not costlier than the order."""
        if self.full is None or not is_cheaper(self.full.cost, self.default.cost):
            return False
        return not is_cheaper(self.order.explained.cost, self.full.cost)


def is_cheaper(cost: float, than: float) -> bool:
    """Whether a cost is lower by at least BETTER_BY."""
    return cost <= than * (1 - BETTER_BY)


def full_search(relations: int) -> dict[str, str]:
    """The settings under which PostgreSQL searches all orders of so many relations."""
    return {"join_collapse_limit": str(relations), "from_collapse_limit": str(relations), "geqo": "off"}


class Adviser:
    """Reads one statement in a session and makes its workload."""

    def __init__(self, text: str, database: Database) -> None:
        self.database = database
        self.text = text.strip().rstrip(";")
        select = parse_select(text)
        explained = database.explain(self.text, {})
        self._columns = database.result_columns(self.text)
        self.query = read_query(select, database, [name for name, _ in self._columns])
        oids = list({relation.table.oid for relation in self.query.relations.values()})
        self.graphs = join_graphs(self.query, database.foreign_keys(oids))
        self.estimates = estimate(self.query, self.graphs, database)
        self.workload = workload_of(self.query, self.graphs, self.estimates)
        self.left_out = 0
        self.default = Explained.of(explained, self.query)

    def best(self, models: tuple[str, ...]) -> Order:
        """The order that the server finds cheapest, of those that it doesn't cost too low where there are some."""
        orders = [order for model in models for order in self._orders(model)]
        sound = [order for order in orders if not is_doubtful(order.explained, self.default)]
        return min(sound or orders, key=lambda order: order.explained.cost)

    def _orders(self, model: str) -> list[Order]:
        """Of the orders of all join graphs the one of the graph as written, and the cheapest others by the model."""
        first, *others = self._planned(model)
        chosen: dict[frozenset[frozenset[str]], dict[str, Any]] = {}
        for entry in [first, *sorted(others, key=lambda entry: entry["cost"])]:
            joined = frozenset(join.aliases() for join in plan_of_report(entry["plan"]).joins())
            chosen.setdefault(joined, entry)
        return [self._order(model, entry) for entry in list(chosen.values())[:ORDERS_MAX]]

    def _planned(self, model: str) -> list[dict[str, Any]]:
        """The report's entries of the join graph as written, and of as many others as PAIRS_MAX allows."""
        first, *others = self.workload["queries"]
        entries = plan_workload({**self.workload, "queries": [first]}, model)
        allowed = PAIRS_MAX // max(1, entries[0]["pairs"])
        self.left_out = max(0, len(others) - allowed)
        others = others[:allowed]
        return entries + (plan_workload({**self.workload, "queries": others}, model) if others else [])

    def _order(self, model: str, entry: dict[str, Any]) -> Order:
        plan = plan_of_report(entry["plan"])
        sql = pretty(rewritten(self.query, plan))
        if self.database.result_columns(sql) != self._columns:
            raise Refused("the rewritten statement would give other columns")
        explained = Explained.of(self.database.explain(sql, AS_WRITTEN), self.query)
        return Order(model, entry["name"], plan, sql, explained)

    def advise(self, options: Options) -> Advice:
        """The advice, with times and actual rows where they are asked for."""
        order = self.best(MODELS[options.model])
        # Once more, since the server's caches were cold the first time, and its time of planning is shown.
        default = Explained.of(self.database.explain(self.text, {}), self.query)
        seconds = options.full_search_seconds
        full = self.database.explain_within(self.text, full_search(len(self.query.relations)), seconds)
        full = Explained.of(full, self.query) if full else None
        notes = doubts(order.explained, self.default) + self.notes()
        advice = Advice(self.query, self.workload, default, order, full, seconds, notes)
        return self._measured(advice) if options.analyze else advice

    def _measured(self, advice: Advice) -> Advice:
        advice.default = self._run(self.text, {})
        order = advice.order
        explained = self._run(order.sql, AS_WRITTEN)
        advice.order = Order(order.model, order.graph, order.plan, order.sql, explained)
        return advice

    def _run(self, sql: str, settings: dict[str, str]) -> Explained:
        answers = [self.database.explain(sql, settings, analyze=True) for _ in range(RUNS)]
        return Explained.of(min(answers, key=lambda answer: answer["Execution Time"]), self.query)

    def notes(self) -> list[str]:
        """What the workload doesn't say, or says in one of several ways."""
        notes = [f"not costed, over more than two relations: {one_line(node)}" for _, node in self.query.wide]
        notes += [f"not costed, over no relation: {one_line(node)}" for node in self.query.free]
        around = ("groupClause", "distinctClause", "sortClause", "limitCount", "havingClause", "windowClause")
        if any(getattr(self.query.outside, clause) for clause in around):
            notes.append("not costed by dpe: what comes after the joins (PostgreSQL's numbers include it)")
        tried = len(self.graphs.graphs) - self.left_out
        if self.left_out:
            notes.append(f"implied equalities: {tried} join graphs were tried, since one alone is large")
        elif not self.graphs.all_trees:
            notes.append(
                f"implied equalities: more than {GRAPHS_MAX} ways to use them, so {tried} join graphs were tried:"
                " as written and the stars"
            )
        elif tried > 1:
            notes.append(f"implied equalities: {tried} join graphs were tried, each way to use them")
        return notes
