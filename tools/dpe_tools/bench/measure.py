"""The runs of the measurement, and its table."""

from __future__ import annotations

import time
from dataclasses import dataclass
from statistics import median

import psycopg

from ..advice import AS_WRITTEN, MODELS, Adviser, full_search, is_cheaper
from ..database import Database
from ..server import private_server
from .data import QUERIES, schema

PLANNING_SECONDS_MAX = 20
RUN_SECONDS_MAX = 30


@dataclass(frozen=True)
class Times:
    """Medians of several runs under some settings: times in milliseconds, none where a run took too long."""

    planning: float
    cost: float
    execution: float | None


@dataclass(frozen=True)
class Row:
    """What was measured of one query: the full search is none where planning takes too long."""

    name: str
    default: Times
    full: Times | None
    advice: Times
    is_better: bool
    tool: float


def measure(runs: int, model: str, chosen: str) -> None:
    """Makes the data on a private server, measures the queries whose names have this part, and prints the table."""
    with private_server(shared_buffers="512MB", max_parallel_workers_per_gather="0") as conninfo:
        with psycopg.connect(conninfo, autocommit=True) as connection:
            connection.execute(schema())
        print(HEAD)
        rows = []
        for name, text in QUERIES.items():
            if chosen in name:
                with Database.connect(conninfo) as database:
                    rows.append(_row(name, text, database, runs, model))
                    print(_line(rows[-1]), flush=True)
        print(_summary(rows))


def _row(name: str, text: str, database: Database, runs: int, model: str) -> Row:
    began = time.monotonic()
    adviser = Adviser(text, database)
    order = adviser.best(MODELS[model])
    tool = (time.monotonic() - began) * 1000
    settings = full_search(len(adviser.query.relations))
    full_ends = database.explain_within(text, settings, PLANNING_SECONDS_MAX) is not None
    default, full, advice = _alternating(
        database, [(text, {}), (text, settings) if full_ends else None, (order.sql, AS_WRITTEN)], runs
    )
    return Row(name, default, full, advice, is_cheaper(order.explained.cost, default.cost), tool)


def _alternating(
    database: Database, ways: list[tuple[str, dict[str, str]] | None], runs: int
) -> list[Times | None]:
    """The medians of each way, whose runs alternate, so that a busy machine is unfair to none."""
    answers: list[list[Times]] = [[] for _ in ways]
    for _ in range(runs):
        for way, some in zip(ways, answers):
            if way:
                some.append(_once(database, *way))
    return [_median(some) if some else None for some in answers]


def _once(database: Database, text: str, settings: dict[str, str]) -> Times:
    plan = database.explain(text, settings)
    limit = {"statement_timeout": f"'{RUN_SECONDS_MAX} s'"}
    try:
        execution = database.explain(text, settings | limit, analyze=True)["Execution Time"]
    except psycopg.errors.QueryCanceled:
        execution = None
    return Times(plan["Planning Time"], plan["Plan"]["Total Cost"], execution)


def _median(some: list[Times]) -> Times:
    executions = [times.execution for times in some if times.execution is not None]
    execution = median(executions) if len(executions) == len(some) else None
    return Times(median(times.planning for times in some), some[0].cost, execution)


HEAD = (
    "| Query | Default: plan, cost, run | Full search | Advice | Verdict | Tool |\n"
    "|---|---|---|---|---|---|"
)


def _line(row: Row) -> str:
    verdict = "better" if row.is_better else "keep the default"
    times = [_times(row.default), _times(row.full), _times(row.advice)]
    return f"| {row.name} | {' | '.join(times)} | {verdict} | {row.tool:.0f} |"


def _times(times: Times | None) -> str:
    if times is None:
        return f"no plan in {PLANNING_SECONDS_MAX} s"
    execution = f"over {RUN_SECONDS_MAX} s" if times.execution is None else f"{times.execution:.1f}"
    return f"{times.planning:.1f}, {times.cost:.0f}, {execution}"


def _summary(rows: list[Row]) -> str:
    better = [row for row in rows if row.is_better]
    slower = [row.name for row in better if _whole(row.advice) > _whole(row.default)]
    lines = ["", f"{len(better)} of {len(rows)} are better by PostgreSQL's own estimate."]
    lines.append("Of these slower than the default, planning and run together: " + ("; ".join(slower) or "none") + ".")
    return "\n".join(lines)


def _whole(times: Times) -> float:
    return float("inf") if times.execution is None else times.planning + times.execution
