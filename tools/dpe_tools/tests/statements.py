"""What is advised on, and what is refused."""

ACCEPTED = {
    "a comma list": "SELECT c.id, n.name FROM nation n, city t, customer c WHERE t.nation_id = n.id AND c.city_id = t.id",
    "joins with ON": "SELECT count(*) FROM region r JOIN nation n ON n.region_id = r.id JOIN city t ON t.nation_id = n.id",
    "both mixed": "SELECT o.id FROM region r, nation n JOIN city t ON t.nation_id = n.id, customer c JOIN orders o"
    " ON o.customer_id = c.id WHERE r.id = n.region_id AND c.city_id = t.id AND r.name = 'region 2'",
    "joins within joins": "SELECT o.id FROM (orders o JOIN (line l JOIN part p ON p.id = l.part_id) ON l.order_id = o.id)"
    " JOIN customer c ON c.id = o.customer_id WHERE p.brand = 'brand 3'",
    "all columns": "SELECT * FROM nation n, region r, city t WHERE n.region_id = r.id AND t.nation_id = n.id",
    "all columns of one": "SELECT r.*, n.name AS nation FROM nation n, region r, city WHERE region_id = r.id AND nation_id = n.id",
    "all columns with USING": "SELECT * FROM orders a JOIN other.orders b USING (id) JOIN line l ON l.order_id = a.id",
    "USING by its name": "SELECT id, remark FROM public.orders a JOIN other.orders b USING (id) JOIN part p USING (id)"
    " ORDER BY id",
    "USING of two types": "SELECT *, pg_typeof(id) FROM customer JOIN city USING (id) JOIN nation USING (id)",
    "USING of several columns": "SELECT part_id, quantity FROM line JOIN supply USING (part_id, supplier_id)"
    " JOIN part ON part.id = part_id WHERE size = 7",
    "no aliases": "SELECT region.name, count(*) FROM region JOIN nation ON nation.region_id = region.id"
    " JOIN city ON city.nation_id = nation.id GROUP BY region.name",
    "names without alias": "SELECT brand, price FROM supply, part, supplier WHERE part_id = part.id AND supplier_id = supplier.id"
    " AND size < 5 AND rating = 3",
    "quoted names": """SELECT "Odd"."select", o.id FROM "Odd Name" AS "Odd", orders AS o, "customer" c
     WHERE "Odd"."Key" = c.id AND o.customer_id = c.id AND "it's" = 1""",
    "names of a schema": "SELECT public.orders.id, remark FROM public.orders, other.orders AS b, line"
    " WHERE orders.id = b.id AND line.order_id = public.orders.id AND number = 1",
    "self-joins": "SELECT a.name, b.name FROM city a, city b, nation n WHERE a.twin_id = b.id AND n.id = a.nation_id",
    "a self-join over three": "SELECT c.id FROM customer a JOIN customer b ON b.boss_id = a.id JOIN customer c ON c.boss_id = b.id",
    "GROUP BY a column": "SELECT n.name, sum(credit) AS total FROM nation n, city t, customer c WHERE t.nation_id = n.id"
    " AND c.city_id = t.id GROUP BY n.name HAVING sum(credit) > 100 ORDER BY total DESC, 1",
    "GROUP BY a result": "SELECT extract(month FROM day) AS month, count(*) FROM orders o JOIN customer c ON c.id = customer_id"
    " JOIN city t ON t.id = c.city_id GROUP BY month ORDER BY month",
    "GROUP BY before a result's name": "SELECT lower(t.name) AS segment, count(*) FROM customer c, city t, orders o"
    " WHERE c.city_id = t.id AND o.customer_id = c.id GROUP BY segment, t.name",
    "GROUPING SETS": "SELECT brand, rating, count(*) FROM supply, part p, supplier s WHERE part_id = p.id AND supplier_id = s.id"
    " GROUP BY GROUPING SETS ((brand), (rating), ())",
    "ORDER BY a result and LIMIT": "SELECT o.id AS number, c.segment FROM orders o, customer c, city t"
    " WHERE o.customer_id = c.id AND t.id = c.city_id ORDER BY number DESC LIMIT 20 OFFSET 5",
    "ORDER BY an expression": "SELECT o.id, -o.id FROM orders o, customer c, city t WHERE o.customer_id = c.id"
    " AND t.id = c.city_id AND t.id < 9 ORDER BY -o.id",
    "DISTINCT": "SELECT DISTINCT n.name, segment FROM nation n, city t, customer c WHERE t.nation_id = n.id AND c.city_id = t.id",
    "DISTINCT ON": "SELECT DISTINCT ON (n.id) n.id, c.id AS c FROM nation n, city t, customer c WHERE t.nation_id = n.id"
    " AND c.city_id = t.id ORDER BY n.id, c.id",
    "a window": "SELECT o.id, rank() OVER w FROM orders o, customer c, city t WHERE o.customer_id = c.id AND c.city_id = t.id"
    " AND t.id < 20 WINDOW w AS (PARTITION BY city_id ORDER BY o.id)",
    "a filter of an aggregate": "SELECT count(*) FILTER (WHERE rating > 4) FROM supply, part p, supplier s WHERE part_id = p.id"
    " AND supplier_id = s.id",
    "equalities that follow": "SELECT o.id FROM orders o, other.orders x, line l WHERE o.id = x.id AND x.id = l.order_id"
    " AND l.quantity = 3",
    "equalities over four": "SELECT l.number FROM orders o, other.orders x, line l, part p WHERE o.id = x.id AND x.id = l.order_id"
    " AND p.id = o.id",
    "equalities over seven": "SELECT a.id FROM part a, part b, part c, part d, part e, part f, part g WHERE a.id = b.id"
    " AND b.id = c.id AND c.id = d.id AND d.id = e.id AND e.id = f.id AND f.id = g.id AND g.size = 4",
    "a cycle of equalities": "SELECT o.id FROM orders o, other.orders x, line l WHERE o.id = x.id AND x.id = l.order_id"
    " AND l.order_id = o.id",
    "a class with a constant": "SELECT l.number, o.day FROM orders o, other.orders x, line l WHERE o.id = x.id"
    " AND x.id = l.order_id AND o.id = 77",
    "two columns of one class": "SELECT c.id FROM city t, customer c, supplier s WHERE t.id = c.city_id AND t.id = s.city_id"
    " AND t.twin_id = c.city_id",
    "a foreign key of two columns": "SELECT p.brand, s.rating, l.quantity FROM part p, supplier s, supply u, line l, orders o"
    " WHERE p.id = u.part_id AND s.id = u.supplier_id AND u.part_id = l.part_id AND u.supplier_id = l.supplier_id"
    " AND o.id = l.order_id AND o.state = 'F' AND p.size = 5",
    "a foreign key that follows": "SELECT count(*) FROM part p, supplier s, supply u, line l WHERE p.id = u.part_id"
    " AND p.id = l.part_id AND s.id = u.supplier_id AND s.id = l.supplier_id",
    "comparisons of rows": "SELECT count(*) FROM supply u, line l, part p WHERE (u.part_id, u.supplier_id)"
    " = (l.part_id, l.supplier_id) AND p.id = u.part_id",
    "an OR over two": "SELECT a.id, b.id FROM nation a, region r, nation b WHERE a.region_id = r.id AND b.region_id = r.id"
    " AND ((a.name = 'nation 3' AND b.name = 'nation 8') OR (a.name = 'nation 8' AND b.name = 'nation 3'))",
    "an inequality as a join": "SELECT count(*) FROM part p, supply u, supplier s WHERE p.id = u.part_id AND s.rating < p.size"
    " AND p.size < 3",
    "an expression as a join": "SELECT count(*) FROM part p, supply u, supplier s WHERE p.id + 0 = u.part_id AND s.id = u.supplier_id",
    "BETWEEN over three": "SELECT count(*) FROM orders o, customer c, line l WHERE o.customer_id = c.id AND l.order_id = o.id"
    " AND l.quantity BETWEEN c.credit - 10 AND o.id",
    "a condition over three": "SELECT count(*) FROM orders o, customer c, line l WHERE o.customer_id = c.id AND l.order_id = o.id"
    " AND c.credit + l.quantity < o.id",
    "a condition over none": "SELECT count(*) FROM orders o, customer c WHERE o.customer_id = c.id AND current_date > date '2000-01-01'",
    "types that aren't carried over": "SELECT a.k, b.k, c.k FROM number_a a, number_b b, number_c c WHERE a.x = b.x AND b.x = c.x"
    " AND a.k < 9",
    "text and varchar": "SELECT a.k, b.k, c.k FROM number_a a, number_b b, number_c c WHERE a.v = b.v AND b.v = c.v AND a.k < 3"
    " AND c.k < 30",
    "partitions": "SELECT v.pages, c.segment FROM visit v, customer c, city t WHERE v.customer_id = c.id AND c.city_id = t.id"
    " AND v.day < date '2020-03-01' AND t.nation_id = 3",
    "one table of a tree": "SELECT count(*) FROM ONLY visit_1 v, customer c, city t WHERE v.customer_id = c.id AND c.city_id = t.id",
    "a materialized view": "SELECT brand, quantity FROM sold, part p, supply u WHERE sold.part_id = p.id AND u.part_id = p.id",
    "a column of the system": "SELECT o.ctid, c.tableoid FROM orders o, customer c, city t WHERE o.customer_id = c.id"
    " AND t.id = c.city_id AND t.id = 5",
    "a row of a relation": "SELECT t, n FROM city t, nation n, region r WHERE t.nation_id = n.id AND n.region_id = r.id AND r.id = 1",
    "a comment and a semicolon": "-- cities\nSELECT t.name FROM city t, nation n, region r WHERE t.nation_id = n.id"
    " AND n.region_id = r.id; -- end",
    "expressions of all kinds": "SELECT CASE WHEN o.state IN ('F', 'P') THEN 1 ELSE 0 END AS kind, o.day + interval '1 day' AS due,"
    " ARRAY[c.id, o.id] AS ids, c.segment || '%' AS label, (o.day, o.id) IS NOT NULL AS given, coalesce(nullif(o.note, ''), 'x'),"
    " t.name COLLATE \"C\", o.day::timestamp AT TIME ZONE 'UTC', -credit, NOT c.id > 3, position('a' IN o.note), row(c.id, 1)"
    " FROM orders o, customer c, city t WHERE o.customer_id = c.id AND c.city_id = t.id AND o.note LIKE '%1%' AND o.note !~ 'x$'"
    " AND o.day BETWEEN '2020-02-01' AND '2020-04-01' AND c.boss_id IS NOT NULL AND c.segment = ANY ('{segment 1,segment 2}')"
    " AND (t.name ILIKE 'CITY%' OR t.id = 3) AND NOT (o.id = 5) AND t.twin_id IS DISTINCT FROM 4 AND o.id % 2 = 0"
    " AND substring(o.note FROM 1 FOR 4) = 'note' AND extract(year FROM o.day) = 2020 AND o.state <> ALL (ARRAY['O'])",
    "nine relations": "SELECT r.name, count(*), sum(l.quantity * u.price) FROM region r JOIN nation n ON n.region_id = r.id"
    " JOIN city t ON t.nation_id = n.id JOIN customer c ON c.city_id = t.id JOIN orders o ON o.customer_id = c.id"
    " JOIN line l ON l.order_id = o.id JOIN supply u ON u.part_id = l.part_id AND u.supplier_id = l.supplier_id"
    " JOIN part p ON p.id = u.part_id JOIN supplier s ON s.id = u.supplier_id"
    " WHERE p.brand = 'brand 3' AND s.rating = 4 GROUP BY r.name ORDER BY r.name",
}
"""Statements that are advised on, by what they show."""

JOINED = "FROM orders o JOIN customer c ON o.customer_id = c.id"

REFUSED = {
    f"SELECT 1 {JOINED} LEFT JOIN city t ON t.id = c.city_id": "LEFT JOIN isn't planned: its order isn't free",
    f"SELECT 1 {JOINED} RIGHT JOIN city t ON t.id = c.city_id": "RIGHT JOIN isn't planned: its order isn't free",
    f"SELECT 1 {JOINED} FULL JOIN city t ON t.id = c.city_id": "FULL JOIN isn't planned: its order isn't free",
    "SELECT 1 FROM orders NATURAL JOIN other.orders x": "NATURAL JOIN isn't planned: write its columns with USING",
    "SELECT 1 FROM orders CROSS JOIN part": "CROSS JOIN isn't planned",
    "SELECT 1 FROM orders, part": 'relation "part" is not joined to the others (a cross join)',
    "SELECT 1 FROM orders o JOIN part p ON true": 'relation "p" is not joined to the others (a cross join)',
    "SELECT 1 FROM orders o, customer c, part p WHERE o.customer_id = c.id AND p.id = o.id + c.id":
        'relation "p" is joined only by a condition over three or more',
    "SELECT 1 FROM orders o, (SELECT * FROM customer) c WHERE o.customer_id = c.id": "a subquery in FROM isn't planned",
    "SELECT 1 FROM orders o, LATERAL (SELECT 1 FROM customer c WHERE c.id = o.customer_id) x": "LATERAL isn't planned",
    f"SELECT 1 {JOINED} WHERE o.id IN (SELECT id FROM part)": "a subquery in an expression isn't planned",
    f"SELECT 1 {JOINED} AND EXISTS (SELECT FROM part)": "a subquery in an expression isn't planned",
    f"SELECT (SELECT 1) {JOINED}": "a subquery in an expression isn't planned",
    f"WITH x AS (SELECT 1) SELECT 1 {JOINED}": "WITH isn't planned",
    f"SELECT 1 {JOINED} UNION SELECT 2": "UNION, INTERSECT and EXCEPT aren't planned",
    "SELECT 1 FROM orders o, generate_series(1, 3) AS g WHERE g = o.id": "a function in FROM isn't planned",
    "SELECT 1 FROM orders o, part p TABLESAMPLE SYSTEM (10) WHERE p.id = o.id": "TABLESAMPLE isn't planned",
    f"SELECT 1 {JOINED} FOR UPDATE": "FOR UPDATE and its kin aren't planned",
    f"SELECT 1 {JOINED} FOR SHARE OF c": "FOR UPDATE and its kin aren't planned",
    f"SELECT 1 {JOINED} WHERE o.id = $1": "parameters aren't planned: write their values",
    f"SELECT 1 INTO made {JOINED}": "SELECT INTO isn't planned",
    "SELECT 1 FROM orders o JOIN rich c ON o.customer_id = c.id": "rich is a view: write the tables of its query",
    "SELECT 1 FROM orders o (number) JOIN part p ON p.id = number": "o: other names for its columns aren't planned",
    "SELECT 1 FROM (orders o JOIN part p ON p.id = o.id) AS x JOIN customer c ON c.id = 1":
        "an alias for a whole join isn't planned",
    "SELECT 1 FROM orders JOIN other.orders x USING (id) AS y": "an alias for a whole join isn't planned",
    "SELECT name FROM nation n, region r WHERE r.id = region_id": 'the server says: column reference "name" is ambiguous',
    "SELECT 1 FROM orders o, customer c WHERE o.customer_id = c.nothing":
        "the server says: column c.nothing does not exist",
    "SELECT 1 FROM orders o, nothing n WHERE o.id = n.id": 'the server says: relation "nothing" does not exist',
    "SELECT 1 FROM orders o, customer c WHERE o.note = c.id": "the server says: operator does not exist: text = integer",
    "SELECT 1 FROM orders o, part o WHERE o.id = 1": '"o" names two relations',
    "SELECT 1 FROM public.orders, other.orders WHERE remark = note": '"orders" names two relations',
    "SELECT 1 FROM orders": "one relation has no join order",
    "SELECT 1": "a SELECT without FROM has no join order",
    "VALUES (1)": "VALUES isn't planned",
    "DELETE FROM orders": "only a SELECT is planned",
    f"EXPLAIN SELECT 1 {JOINED}": "only a SELECT is planned",
    f"SELECT 1 {JOINED}; SELECT 2": "one statement is wanted, and there are 2",
    "": "one statement is wanted, and there are 0",
    "SELECT 1 FROM orders WHERE": "not SQL: syntax error at end of input",
    "SELECT 1 FROM " + ", ".join(f"part p{i}" for i in range(21)): "21 relations, at most 20",
}
"""Statements that are refused, and the line that says why."""
