"""The tables of a database as a workload has them."""

from __future__ import annotations

from typing import Any

from .database import Database
from .refusals import Refused
from .workload import is_name

TABLES_MAX = 4096
INPUT_CAP = 2**40

TABLES = """
    SELECT c.oid, n.nspname, c.relname, c.reltuples, c.relkind = 'p'
    FROM pg_catalog.pg_class AS c JOIN pg_catalog.pg_namespace AS n ON n.oid = c.relnamespace
    WHERE c.relkind IN ('r', 'p', 'f', 'm') AND NOT c.relispartition
      AND CASE WHEN %(schema)s::text IS NULL THEN pg_catalog.pg_table_is_visible(c.oid)
          AND n.nspname NOT IN ('pg_catalog', 'information_schema') AND n.nspname NOT LIKE 'pg\\_temp%%'
          ELSE n.nspname = %(schema)s END
    ORDER BY c.relname
"""
# A table with children has one row of statistics for itself and one for all; a partitioned table has the latter alone.
COLUMNS = """
    SELECT a.attname, s.n_distinct
    FROM pg_catalog.pg_attribute AS a
    LEFT JOIN pg_catalog.pg_stats AS s
      ON s.schemaname = %(schema)s AND s.tablename = %(table)s AND s.attname = a.attname AND s.inherited = %(inherited)s
    WHERE a.attrelid = %(oid)s AND a.attnum > 0 AND NOT a.attisdropped
    ORDER BY a.attnum
"""


def tables_of(database: Database, schema: str | None) -> tuple[list[dict[str, Any]], list[str]]:
    """The tables of a schema, or those that the search path finds, and what the server doesn't know of them."""
    found = database.rows(TABLES, {"schema": schema})
    if not found:
        raise Refused(f"no tables in the schema {schema}" if schema else "no tables that need no schema's name")
    if len(found) > TABLES_MAX:
        raise Refused(f"{len(found)} tables, at most {TABLES_MAX}: choose a schema")
    tables, notes = [], []
    for oid, where, name, rows, inherited in found:
        if not is_name(name):
            notes.append(f"{name!r} is left out: its name has a control character or is too long")
            continue
        if rows < 0:
            notes.append(f"{name} has no statistics: run ANALYZE; it stands with 1 row")
        of = {"oid": oid, "schema": where, "table": name, "inherited": inherited}
        tables.append(_table(name, max(1, rows), database.rows(COLUMNS, of)))
    return tables, notes


def _table(name: str, rows: float, columns: list[tuple[str, float | None]]) -> dict[str, Any]:
    known = [
        {"name": column, "distinct": _distinct(distinct, rows)}
        for column, distinct in columns
        if distinct is not None and is_name(column)
    ]
    return {"name": name, "rows": min(INPUT_CAP, round(rows)), "columns": known}


def _distinct(distinct: float, rows: float) -> int:
    """The number of distinct values; a negative one of the statistics is a part of the rows."""
    number = -distinct * rows if distinct < 0 else distinct
    return max(1, min(INPUT_CAP, round(number)))
