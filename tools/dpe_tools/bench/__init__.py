"""Measures PostgreSQL's default, its full search and the advice: `data` has the databases and queries, `measure` the runs."""
