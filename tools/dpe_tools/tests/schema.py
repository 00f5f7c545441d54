"""The database of the tests: orders of parts, with self-joins, odd names, partitions and a foreign key of two columns."""

SCHEMA = """
CREATE TABLE region (id int PRIMARY KEY, name text);
CREATE TABLE nation (id int PRIMARY KEY, region_id int REFERENCES region, name text);
CREATE TABLE city (id bigint PRIMARY KEY, nation_id int REFERENCES nation, name varchar(20), twin_id bigint);
CREATE TABLE customer (id int PRIMARY KEY, city_id int, segment text, credit numeric, boss_id int);
CREATE TABLE orders (id int PRIMARY KEY, customer_id int REFERENCES customer, day date, state char(1), note text);
CREATE TABLE part (id int PRIMARY KEY, brand text, size int);
CREATE TABLE supplier (id int PRIMARY KEY, city_id int, rating int);
CREATE TABLE supply (part_id int REFERENCES part, supplier_id int REFERENCES supplier, price numeric,
  PRIMARY KEY (part_id, supplier_id));
CREATE TABLE line (order_id int REFERENCES orders, number int, part_id int, supplier_id int, quantity int,
  PRIMARY KEY (order_id, number), FOREIGN KEY (part_id, supplier_id) REFERENCES supply);
CREATE TABLE "Odd Name" ("Key" int PRIMARY KEY, "select" text, "it's" int);
CREATE SCHEMA other;
CREATE TABLE other.orders (id int PRIMARY KEY, remark text);
CREATE TABLE visit (customer_id int, day date, pages int) PARTITION BY RANGE (day);
CREATE TABLE visit_1 PARTITION OF visit FOR VALUES FROM ('2020-01-01') TO ('2020-07-01');
CREATE TABLE visit_2 PARTITION OF visit FOR VALUES FROM ('2020-07-01') TO ('2021-01-01');
CREATE TABLE number_a (k int, x float8, v text);
CREATE TABLE number_b (k int, x numeric, v varchar(9));
CREATE TABLE number_c (k int, x int, v text);
CREATE VIEW rich AS SELECT * FROM customer WHERE credit > 500;
CREATE MATERIALIZED VIEW sold AS SELECT part_id, sum(quantity) AS quantity FROM line GROUP BY part_id;
CREATE SEQUENCE counter;
INSERT INTO region SELECT i, 'region ' || i FROM generate_series(1, 5) AS i;
INSERT INTO nation SELECT i, 1 + i % 5, 'nation ' || i FROM generate_series(1, 25) AS i;
INSERT INTO city SELECT i, 1 + i % 25, 'city ' || i, CASE i % 4 WHEN 0 THEN i ELSE 1 + i * 7 % 200 END FROM generate_series(1, 200) AS i;
INSERT INTO customer SELECT i, 1 + i % 200, 'segment ' || i % 5, i % 1000, nullif(i / 10, 0)
  FROM generate_series(1, 1500) AS i;
INSERT INTO orders SELECT i, 1 + i * 7 % 1500, date '2020-01-01' + i % 366, substr('OFP', 1 + i % 3, 1), 'note ' || i % 40
  FROM generate_series(1, 6000) AS i;
INSERT INTO part SELECT i, 'brand ' || i % 25, i % 50 FROM generate_series(1, 1000) AS i;
INSERT INTO supplier SELECT i, 1 + i * 3 % 200, i % 10 FROM generate_series(1, 100) AS i;
INSERT INTO supply SELECT p, 1 + (p + 25 * s) % 100, p % 90 FROM generate_series(1, 1000) AS p, generate_series(0, 3) AS s;
INSERT INTO line SELECT o, n, p, 1 + (p + 25 * (o % 4)) % 100, n * 3
  FROM (SELECT o, n, 1 + (o * 13 + n * 101) % 1000 AS p FROM generate_series(1, 6000) AS o, generate_series(1, 3) AS n) AS x;
INSERT INTO "Odd Name" SELECT i, 'word ' || i % 7, i % 3 FROM generate_series(1, 300) AS i;
INSERT INTO other.orders SELECT i, 'remark ' || i % 11 FROM generate_series(1, 6000, 2) AS i;
INSERT INTO visit SELECT 1 + i % 1500, date '2020-01-01' + i % 360, i % 9 FROM generate_series(1, 9000) AS i;
INSERT INTO number_a SELECT i, i % 20, 'v' || i % 10 FROM generate_series(1, 200) AS i;
INSERT INTO number_b SELECT i, i % 20, 'v' || i % 10 FROM generate_series(1, 200) AS i;
INSERT INTO number_c SELECT i, i % 20, 'v' || i % 10 FROM generate_series(1, 200) AS i;
CREATE INDEX ON orders (customer_id);
CREATE INDEX ON line (part_id, supplier_id);
REFRESH MATERIALIZED VIEW sold;
CREATE ROLE reader LOGIN PASSWORD 'reader';
GRANT SELECT (id, city_id) ON customer TO reader;
GRANT SELECT (id, customer_id, day) ON orders TO reader;
GRANT SELECT (id, nation_id) ON city TO reader;
ANALYZE;
"""
