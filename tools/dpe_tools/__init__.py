"""Tools around dpe for people who have a PostgreSQL database.

Begin with `advice`, which goes from a statement to an advice; `sql` reads the statement, `graphs` and `estimates` make the
workload, `planner` runs dpe, `rewrite` writes the order as SQL, and `wording` and `page` show it.
"""
