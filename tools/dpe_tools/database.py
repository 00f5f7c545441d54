"""A read-only session on a PostgreSQL server: what its catalogue says, and its own estimates."""

from __future__ import annotations

from collections.abc import Iterator
from contextlib import contextmanager
from dataclasses import dataclass
from typing import Any

import psycopg

from .refusals import Refused

VIEW, PLAIN_KINDS = "v", "rpfm"

COLUMNS = """
    SELECT a.attname, a.attnum, t.oid, coalesce(base.oid, t.oid), a.attcollation,
           EXISTS (SELECT FROM pg_catalog.pg_opclass AS o JOIN pg_catalog.pg_am AS m ON m.oid = o.opcmethod
                   WHERE m.amname = 'btree' AND o.opcdefault AND o.opcintype = coalesce(base.oid, t.oid))
    FROM pg_catalog.pg_attribute AS a
    JOIN pg_catalog.pg_type AS t ON t.oid = a.atttypid
    LEFT JOIN pg_catalog.pg_type AS base ON base.oid = t.typbasetype
    WHERE a.attrelid = %s AND NOT a.attisdropped
    ORDER BY a.attnum
"""
FOREIGN_KEYS = """
    SELECT conrelid, conkey, confrelid, confkey FROM pg_catalog.pg_constraint
    WHERE contype = 'f' AND array_length(conkey, 1) > 1 AND conrelid = ANY (%s) AND confrelid = ANY (%s)
    ORDER BY conrelid, oid
"""

# The types among which equality can be carried over from one pair of columns to another.
INTEGERS = (20, 21, 23)
TEXT, VARCHAR = 25, 1043


@dataclass(frozen=True)
class TableColumn:
    """A column of a table. Columns of one `family` have one transitive equality; it is none where that isn't known."""

    name: str
    number: int
    type: int
    family: tuple[Any, ...] | None


@dataclass(frozen=True)
class Table:
    """A table of the catalogue, with its columns in order; those of negative number are the system's."""

    oid: int
    schema: str
    name: str
    columns: tuple[TableColumn, ...]


@dataclass(frozen=True)
class ForeignKey:
    """A foreign key of several columns, by the tables and the numbers of their columns."""

    table: int
    columns: tuple[int, ...]
    referenced: int
    referenced_columns: tuple[int, ...]


def one_line_of(error: psycopg.Error) -> str:
    """The server's own message on one line."""
    message = error.diag.message_primary or str(error)
    return " ".join(message.split())


class Database:
    """A session that writes nothing: its one transaction is read-only and is rolled back."""

    def __init__(self, connection: psycopg.Connection) -> None:
        self._connection = connection

    @classmethod
    @contextmanager
    def connect(cls, conninfo: str) -> Iterator[Database]:
        """A session on the server of this connection string or URI."""
        try:
            connection = psycopg.connect(conninfo, application_name="dpe advise")
        except psycopg.Error as error:
            raise Refused(f"no connection: {one_line_of(error)}") from error
        connection.read_only = True
        try:
            yield cls(connection)
        except psycopg.Error as error:
            raise Refused(f"the server says: {one_line_of(error)}") from error
        finally:
            connection.close()

    def rows(self, query: str, values: tuple[Any, ...] | dict[str, Any] = ()) -> list[tuple[Any, ...]]:
        """The rows of a query."""
        return self._connection.execute(query, values or None).fetchall()

    def table(self, name: str) -> Table:
        """The table of this name, written as in SQL."""
        found = self.rows(
            "SELECT c.oid, n.nspname, c.relname, c.relkind::text FROM pg_catalog.pg_class AS c"
            " JOIN pg_catalog.pg_namespace AS n ON n.oid = c.relnamespace WHERE c.oid = to_regclass(%s)",
            (name,),
        )
        if not found:
            raise Refused(f"no table {name}")
        oid, schema, table, kind = found[0]
        if kind == VIEW:
            raise Refused(f"{name} is a view: write the tables of its query")
        if kind not in PLAIN_KINDS:
            raise Refused(f"{name} is no table")
        columns = tuple(_column(*row) for row in self.rows(COLUMNS, (oid,)))
        return Table(oid, schema, table, columns)

    def foreign_keys(self, tables: list[int]) -> list[ForeignKey]:
        """The foreign keys of several columns among these tables."""
        return [
            ForeignKey(table, tuple(columns), referenced, tuple(others))
            for table, columns, referenced, others in self.rows(FOREIGN_KEYS, (tables, tables))
        ]

    def result_columns(self, select: str) -> list[tuple[str, int]]:
        """The names and types of the columns that a statement gives; it isn't run."""
        pgconn = self._connection.pgconn
        prepared = pgconn.prepare(b"", select.encode())
        described = pgconn.describe_prepared(b"")
        for result in (prepared, described):
            if result.status not in (psycopg.pq.ExecStatus.COMMAND_OK, psycopg.pq.ExecStatus.TUPLES_OK):
                raise Refused(f"the server says: {psycopg.pq.error_message(result)}")
        return [(described.fname(i).decode(), described.ftype(i)) for i in range(described.nfields)]

    def common_type(self, left: int, right: int) -> int:
        """The type as which a column that USING merges is given."""
        names = [self.rows("SELECT format_type(%s, NULL)", (oid,))[0][0] for oid in (left, right)]
        return self.result_columns(f"SELECT coalesce(NULL::{names[0]}, NULL::{names[1]})")[0][1]

    def estimates(self, selects: list[str]) -> list[int]:
        """The rows that the server expects of each statement, from one batch of EXPLAINs."""
        with self._connection.pipeline():
            cursors = [self._connection.execute(f"EXPLAIN (FORMAT JSON) {select}") for select in selects]
        return [max(1, round(cursor.fetchone()[0][0]["Plan"]["Plan Rows"])) for cursor in cursors]

    def explain(self, select: str, settings: dict[str, str], analyze: bool = False) -> dict[str, Any]:
        """The server's plan of a statement under these settings, with its time of planning; run, where asked for."""
        options = "ANALYZE, TIMING OFF, " if analyze else ""
        with self._connection.transaction(force_rollback=True):
            for name, value in settings.items():
                self._connection.execute(f"SET LOCAL {name} = {value}")
            query = f"EXPLAIN ({options}SUMMARY, FORMAT JSON) {select}"
            return self._connection.execute(query).fetchone()[0][0]

    def explain_within(self, select: str, settings: dict[str, str], seconds: float) -> dict[str, Any] | None:
        """The server's plan, or none where planning takes longer than that."""
        limit = {"statement_timeout": str(max(1, round(seconds * 1000)))}
        try:
            return self.explain(select, settings | limit)
        except psycopg.errors.QueryCanceled:
            return None


def _column(name: str, number: int, own: int, base: int, collation: int, ordered: bool) -> TableColumn:
    family: tuple[Any, ...] | None = None
    if base in INTEGERS:
        family = ("integer",)
    elif base in (TEXT, VARCHAR):
        family = ("text", collation)
    elif ordered:
        family = (base, collation)
    return TableColumn(name, number, own, family)
