"""The data and the queries that are measured: a schema like TPC-H's, a snowflake, a star, a chain and a cycle."""

from __future__ import annotations

from pathlib import Path

EXAMPLE = Path(__file__).resolve().parents[2] / "example.sql"

TRADE = """
CREATE TABLE region (r_id int PRIMARY KEY, r_name text);
CREATE TABLE nation (n_id int PRIMARY KEY, n_region int REFERENCES region, n_name text);
CREATE TABLE supplier (s_id int PRIMARY KEY, s_nation int REFERENCES nation, s_rating int);
CREATE TABLE customer (c_id int PRIMARY KEY, c_nation int REFERENCES nation, c_segment int);
CREATE TABLE part (p_id int PRIMARY KEY, p_brand int, p_size int);
CREATE TABLE supply (u_part int REFERENCES part, u_supplier int REFERENCES supplier, u_price int,
  PRIMARY KEY (u_part, u_supplier));
CREATE TABLE orders (o_id int PRIMARY KEY, o_customer int REFERENCES customer, o_day int, o_clerk int);
CREATE TABLE line (l_order int REFERENCES orders, l_part int, l_supplier int, l_quantity int, l_day int,
  FOREIGN KEY (l_part, l_supplier) REFERENCES supply);
CREATE TABLE clerk (k_id int PRIMARY KEY, k_office int);
CREATE TABLE office (f_id int PRIMARY KEY, f_nation int REFERENCES nation);
INSERT INTO region SELECT i, 'region ' || i FROM generate_series(1, 5) AS i;
INSERT INTO nation SELECT i, 1 + i % 5, 'nation ' || i FROM generate_series(1, 25) AS i;
INSERT INTO supplier SELECT i, 1 + i * 7919 / 13 % 25, i % 10 FROM generate_series(1, 500) AS i;
INSERT INTO customer SELECT i, 1 + i * 7919 / 17 % 25, i % 5 FROM generate_series(1, 7500) AS i;
INSERT INTO part SELECT i, i * 7919 / 11 % 25, i * 6007 / 19 % 50 FROM generate_series(1, 10000) AS i;
INSERT INTO supply SELECT p, 1 + (p + 125 * s) % 500, p % 97 FROM generate_series(1, 10000) AS p, generate_series(0, 3) AS s;
INSERT INTO orders SELECT i, 1 + (i * 7919) % 7500, i % 2400, 1 + i % 1000 FROM generate_series(1, 75000) AS i;
INSERT INTO line SELECT o, p, 1 + (p + 125 * (o % 4)) % 500, o % 50, (o * 3 + n) % 2500
  FROM (SELECT o, n, 1 + (o * 131 + n * 1013) % 10000 AS p FROM generate_series(1, 75000) AS o, generate_series(1, 4) AS n) AS x;
INSERT INTO clerk SELECT i, 1 + i % 50 FROM generate_series(1, 1000) AS i;
INSERT INTO office SELECT i, 1 + i % 25 FROM generate_series(1, 50) AS i;
CREATE INDEX ON line (l_order);
CREATE INDEX ON line (l_part, l_supplier);
CREATE INDEX ON orders (o_customer);
"""

# The dimensions of the snowflake: for each its rows, and the dimension that it leads to.
DIMENSIONS = {
    "store": (400, "city"), "city": (120, "state"), "state": (30, "country"), "country": (6, None),
    "product": (5000, "category"), "category": (200, "department"), "department": (12, None),
    "buyer": (20000, "household"), "household": (6000, "segment"), "segment": (15, None),
    "promo": (300, "channel"), "channel": (9, None),
    "day": (1500, "month"), "month": (50, "year"), "year": (5, None),
    "vendor": (800, "origin"), "origin": (40, None),
    "carrier": (60, "fleet"), "fleet": (8, None),
}
HEADS = [name for name in DIMENSIONS if name not in {target for _, target in DIMENSIONS.values()}]
SALES = 400_000
STAR_ROWS = 300_000
RAYS = [40 + 211 * place % 3000 for place in range(15)]
CHAIN = [3000, 20000, 800, 40000, 5000, 15000, 600, 25000, 9000, 30000, 1200, 18000, 7000, 35000, 900, 22000, 4000, 12000, 2500, 8000]
CYCLE = [2000, 9000, 700, 12000, 3000, 15000, 1000, 8000, 5000, 11000, 600, 14000, 2500, 6000]


def schema() -> str:
    """The statements that make the data."""
    parts = [TRADE]
    for name, (rows, target) in DIMENSIONS.items():
        leads = f", {target} int" if target else ""
        value = f", 1 + (i * 37) % {DIMENSIONS[target][0]}" if target else ""
        parts.append(f"CREATE TABLE {name} (id int PRIMARY KEY, kind int{leads});")
        parts.append(f"INSERT INTO {name} SELECT i, i % 20{value} FROM generate_series(1, {rows}) AS i;")
    parts.append(_fact("sale", {head: DIMENSIONS[head][0] for head in HEADS}, SALES))
    rays = {f"ray{place}": rows for place, rows in enumerate(RAYS)}
    for name, rows in rays.items():
        parts.append(f"CREATE TABLE {name} (id int PRIMARY KEY, kind int);")
        parts.append(f"INSERT INTO {name} SELECT i, i % 20 FROM generate_series(1, {rows}) AS i;")
    parts.append(_fact("hub", rays, STAR_ROWS))
    parts += [_link("chain", CHAIN, place) for place in range(len(CHAIN))]
    parts += [_link("ring", CYCLE, place) for place in range(len(CYCLE))]
    return "\n".join([*parts, "ANALYZE;"])


def _fact(name: str, targets: dict[str, int], rows: int) -> str:
    columns = ", ".join(f"{target} int" for target in targets)
    values = ", ".join(f"1 + (i * {10007 + 2 * place}::bigint + i / {101 + place}) % {size}" for place, size in enumerate(targets.values()))
    return (
        f"CREATE TABLE {name} ({columns}, amount int);\n"
        f"INSERT INTO {name} SELECT {values}, i % 1000 FROM generate_series(1, {rows}) AS i;"
    )


def _link(name: str, sizes: list[int], place: int) -> str:
    """A table of a chain or a cycle: each row leads to a key of the next table, and several rows have one key."""
    rows, following = sizes[place], sizes[(place + 1) % len(sizes)]
    return (
        f"CREATE TABLE {name}{place} (key int, next int, kind int);\n"
        f"INSERT INTO {name}{place} SELECT 1 + i % {max(1, rows * 2 // 3)}, 1 + (i * 7::bigint) % {max(1, following * 2 // 3)},"
        f" i % 50 FROM generate_series(1, {rows}) AS i;\nCREATE INDEX ON {name}{place} (key);"
    )


def _comma(relations: list[str], conditions: list[str], filters: list[str], result: str = "count(*)") -> str:
    return f"SELECT {result} FROM {', '.join(relations)} WHERE {' AND '.join(conditions + filters)}"


def _joins(first: str, joins: list[tuple[str, str]], filters: list[str], result: str = "count(*)") -> str:
    written = " ".join(f"JOIN {relation} ON {condition}" for relation, condition in joins)
    return f"SELECT {result} FROM {first} {written} WHERE {' AND '.join(filters)}"


def _snowflake(names: list[str], filters: list[str], comma: bool) -> str:
    """Sales with these dimensions in this order, each after the one that leads to it."""
    joins = []
    for name in names:
        parent = next((other for other, (_, target) in DIMENSIONS.items() if target == name), "sale")
        joins.append((name, f"{parent}.{name} = {name}.id"))
    return _written("sale", joins, filters, "count(*), sum(sale.amount)", comma)


def _written(first: str, joins: list[tuple[str, str]], filters: list[str], result: str, comma: bool) -> str:
    if comma:
        return _comma([first, *(name for name, _ in joins)], [condition for _, condition in joins], filters, result)
    return _joins(first, joins, filters, result)


def _star(rays: int, kept: list[int], comma: bool) -> str:
    joins = [(f"ray{place}", f"hub.ray{place} = ray{place}.id") for place in range(rays)]
    return _written("hub", joins, [f"ray{place}.kind = 3" for place in kept], "count(*), sum(hub.amount)", comma)


def _chain(name: str, length: int, kinds: dict[int, int], comma: bool, closed: bool = False) -> str:
    joins = [(f"{name}{place}", f"{name}{place - 1}.next = {name}{place}.key") for place in range(1, length)]
    filters = [f"{name}{place}.kind < {kind}" for place, kind in kinds.items()]
    if closed:
        filters.append(f"{name}{length - 1}.next = {name}0.key")
    return _written(f"{name}0", joins, filters, "count(*)", comma)


_TRADE_8 = [
    ("line", "l_order = o_id"), ("part", "p_id = l_part"), ("supplier", "s_id = l_supplier"),
    ("customer", "c_id = o_customer"), ("nation n1", "n1.n_id = c_nation"), ("nation n2", "n2.n_id = s_nation"),
    ("region", "r_id = n1.n_region"),
]
_TRADE_12 = [
    "orders", "customer", "nation n1", "region r1", "clerk", "office", "line", "supply", "part", "supplier", "nation n2", "region r2",
]
_TRADE_12_JOINED = [
    "c_id = o_customer", "n1.n_id = c_nation", "r1.r_id = n1.n_region", "k_id = o_clerk", "f_id = k_office", "l_order = o_id",
    "u_part = l_part", "u_supplier = l_supplier", "p_id = u_part", "s_id = u_supplier", "n2.n_id = s_nation",
    "r2.r_id = n2.n_region",
]
_ALL = list(DIMENSIONS)

QUERIES: dict[str, str] = {
    "trade, 5, list": _comma(
        ["customer", "orders", "line", "supplier", "nation"],
        ["c_id = o_customer", "l_order = o_id", "l_supplier = s_id", "s_nation = n_id", "c_nation = n_id"],
        ["n_name = 'nation 7'", "o_day < 400"],
    ),
    "trade, 8, joins": _joins("orders", _TRADE_8, ["r_name = 'region 2'", "p_brand = 3", "o_day < 700"]),
    "trade, 12, joins": EXAMPLE.read_text(),
    "trade, 12, list": _comma(_TRADE_12, _TRADE_12_JOINED, ["p_brand = 3", "p_size = 28", "r2.r_name = 'region 2'"]),
    "snowflake, 10, joins": _snowflake(
        ["day", "month", "year", "buyer", "household", "segment", "product", "category", "department"],
        ["department.kind = 3", "segment.kind = 4", "year.kind = 2"], False),
    "snowflake, 13, joins": _snowflake(_ALL[:12], ["channel.kind = 2", "department.kind = 3", "country.kind = 1"], False),
    "snowflake, 16, joins": _snowflake(_ALL[:15], ["year.kind = 2", "channel.kind = 2", "department.kind = 3"], False),
    "snowflake, 16, list": _snowflake(_ALL[:15], ["year.kind = 2", "channel.kind = 2", "department.kind = 3"], True),
    "snowflake, 20, joins": _snowflake(_ALL, ["fleet.kind = 2", "origin.kind = 7", "year.kind = 1"], False),
    "star, 11, joins": _star(10, [8, 9], False),
    "star, 13, list": _star(12, [3, 10, 11], True),
    "star, 16, joins": _star(15, [12, 13, 14], False),
    "star, 16, list": _star(15, [12, 13, 14], True),
    "chain, 12, joins": _chain("chain", 12, {10: 2, 11: 5, 5: 10}, False),
    "chain, 12, list": _chain("chain", 12, {0: 40, 5: 3, 11: 4}, True),
    "chain, 16, list": _chain("chain", 16, {2: 10, 8: 3, 14: 5}, True),
    "chain, 20, joins": _chain("chain", 20, {18: 2, 19: 5, 6: 10, 12: 25}, False),
    "chain, 20, list": _chain("chain", 20, {18: 2, 19: 5, 6: 10, 12: 25}, True),
    "cycle, 14, joins": _chain("ring", 14, {2: 25, 10: 3, 12: 5}, False, True),
    "cycle, 14, list": _chain("ring", 14, {2: 25, 10: 3, 12: 5}, True, True),
}
"""The queries, by their shape, how many relations they have, and whether these are a list or explicit joins."""
