-- Queries and changes of all kinds, each as psql shows it. \timing is off, and nothing here depends on time or chance.
\set VERBOSITY verbose
\pset null '(null)'
SELECT * FROM account WHERE id = 1;
SELECT * FROM account WHERE id = 1;
SELECT * FROM account WHERE id = 1;
SELECT id, balance FROM account WHERE id < 6 ORDER BY id \gdesc
SELECT id, balance FROM account WHERE id < 6 ORDER BY id;
SELECT id, balance FROM account WHERE id < 6 ORDER BY id \gx
SELECT id, balance FROM account WHERE id = 4 \gset its_
\echo :its_id :its_balance
SELECT id, number % 2 AS odd, amount FROM entry WHERE account < 3 ORDER BY 1, 2 \crosstabview
SELECT account, number, amount FROM entry WHERE account < 4 ORDER BY 1, 2 \crosstabview
SELECT format('SELECT owner FROM account WHERE id = %s', i) FROM generate_series(1, 5) i \gexec
SELECT format('SELECT balance, id FROM account WHERE id = %s', i) FROM generate_series(1, 60) i \gexec
\pset format unaligned
SELECT * FROM account WHERE id IN (3, 4) ORDER BY id;
\pset format csv
SELECT * FROM account WHERE id IN (3, 4) ORDER BY id;
\pset format aligned
-- Joins
SELECT a.id, e.number FROM account a JOIN entry e ON e.account = a.id WHERE a.id < 4 ORDER BY 1, 2;
SELECT a.id, e.number FROM account a LEFT JOIN entry e ON e.account = a.id AND e.number = 2 WHERE a.id BETWEEN 18 AND 24 ORDER BY 1, 2;
SELECT a.id, e.number FROM entry e RIGHT JOIN account a ON e.account = a.id WHERE a.id BETWEEN 19 AND 23 ORDER BY 1, 2;
SELECT a.id, e.account, e.number FROM (SELECT * FROM account WHERE id BETWEEN 19 AND 22) a FULL JOIN (SELECT * FROM entry WHERE account IN (5, 20)) e ON e.account = a.id ORDER BY 1, 2, 3;
SELECT a.id, b.id FROM account a CROSS JOIN account b WHERE a.id < 3 AND b.id < 3 ORDER BY 1, 2;
SELECT * FROM account NATURAL JOIN (SELECT id, id * 2 AS twice FROM account) x WHERE id = 5;
SELECT id, a.owner, b.owner FROM account a JOIN account b USING (id) WHERE id = 6;
SELECT id, both.owner FROM account a JOIN account b USING (id) AS both JOIN keyless ON a = id, LATERAL (SELECT a.owner) c WHERE id = 6;
SELECT a.id, b.id FROM account a JOIN account b USING (id) AS both WHERE both.id = 6;
SELECT a.id, l.* FROM account a, LATERAL (SELECT number, amount FROM entry WHERE account = a.id ORDER BY number DESC LIMIT 2) l WHERE a.id < 4 ORDER BY 1, 2;
SELECT a.id, l.* FROM account a LEFT JOIN LATERAL (SELECT sum(amount) FROM entry WHERE account = a.id) l ON true WHERE a.id IN (1, 30) ORDER BY 1;
SELECT a.id, u.tag, u.n FROM account a, unnest(a.tags) WITH ORDINALITY u(tag, n) WHERE a.id < 3 ORDER BY 1, 3;
SELECT a.*, g FROM account a JOIN generate_series(1, 2) g ON g = a.id ORDER BY g;
SELECT a.*, k.* FROM account a, keyless k WHERE a.id = k.a AND k.a < 3 ORDER BY a.id;
SELECT (a).id, a FROM account a WHERE id = 2;
SELECT account FROM account WHERE id = 2;
SELECT account.* FROM account WHERE id = 2;
SELECT row_to_json(a) FROM account a WHERE id = 2;
SELECT psql_queries.account.id, ctid IS NULL, tableoid::regclass, xmin IS NULL FROM account WHERE id = 2;
SELECT FROM account WHERE id < 3;
SELECT ALL id FROM account WHERE id < 3 ORDER BY id;
TABLE keyless;
SELECT * FROM ONLY account WHERE id = 2;
SELECT a.id "from", b.id AS "select" FROM account AS a (id, x), account b WHERE a.id = 2 AND b.id = 3;
SELECT id FROM account AS "Weird ""name" WHERE "Weird ""name".id = 3;
-- Aggregates, grouping sets, windows
SELECT count(*), sum(balance), avg(id)::numeric(10, 2), string_agg(owner, ',' ORDER BY id) FROM account WHERE id < 5;
SELECT owner, count(*) FILTER (WHERE id > 10), array_agg(id ORDER BY id DESC) FROM account WHERE id < 20 GROUP BY owner HAVING count(*) > 2 ORDER BY owner;
SELECT owner, id % 2, count(*), grouping(owner) FROM account GROUP BY GROUPING SETS ((owner), (id % 2), ()) ORDER BY 1, 2;
SELECT owner, id % 2, sum(balance) FROM account WHERE id < 9 GROUP BY ROLLUP (1, 2) ORDER BY 1, 2;
SELECT owner, id % 2, sum(balance) FROM account WHERE id < 9 GROUP BY CUBE (owner, id % 2) ORDER BY 1, 2;
SELECT id, owner FROM account WHERE id < 4 GROUP BY id ORDER BY id;
SELECT percentile_cont(0.5) WITHIN GROUP (ORDER BY balance), mode() WITHIN GROUP (ORDER BY owner) FROM account;
SELECT id, row_number() OVER w, lag(balance) OVER w, sum(balance) OVER (w ROWS BETWEEN 1 PRECEDING AND 1 FOLLOWING EXCLUDE CURRENT ROW), ntile(3) OVER (ORDER BY id) FROM account WHERE id < 9 WINDOW w AS (PARTITION BY owner ORDER BY id) ORDER BY id;
SELECT id, first_value(owner) OVER (ORDER BY id RANGE UNBOUNDED PRECEDING) FROM account WHERE id < 4 ORDER BY id;
SELECT DISTINCT owner FROM account ORDER BY owner;
SELECT DISTINCT ON (owner) owner, id FROM account ORDER BY owner, id DESC;
SELECT EXISTS (SELECT 1 FROM account WHERE id = 3), (SELECT owner FROM account WHERE id = 3), ARRAY(SELECT id FROM account WHERE id < 4 ORDER BY id), 3 = ANY (SELECT id FROM account);
SELECT id FROM account WHERE id IN (SELECT account FROM entry WHERE number = 2) AND NOT EXISTS (SELECT FROM keyless WHERE a = id) ORDER BY id;
-- Set operations, CTEs
SELECT id FROM account WHERE id < 3 UNION SELECT number FROM entry ORDER BY 1;
SELECT id FROM account WHERE id < 3 UNION ALL SELECT number FROM entry WHERE account = 1 ORDER BY 1;
SELECT id FROM account WHERE id < 9 INTERSECT SELECT number FROM entry ORDER BY 1;
(SELECT id FROM account WHERE id < 9 EXCEPT SELECT number FROM entry) ORDER BY 1 LIMIT 3;
(SELECT id FROM account WHERE id = 1);
VALUES (1, 'a'), (2, NULL) ORDER BY 1 DESC;
WITH a AS (SELECT * FROM account WHERE id < 4) SELECT id, owner FROM a ORDER BY id;
WITH a AS MATERIALIZED (SELECT * FROM account WHERE id < 4), b AS NOT MATERIALIZED (SELECT * FROM entry) SELECT a.id, b.number FROM a JOIN b ON b.account = a.id ORDER BY 1, 2;
WITH RECURSIVE t(n, path) AS (SELECT 1, ARRAY[1] UNION ALL SELECT a.id, path || a.id FROM t JOIN account a ON a.id = n * 2) SELECT * FROM t ORDER BY n;
WITH RECURSIVE t(n) AS (SELECT 1 UNION SELECT n + 1 FROM t WHERE n < 4) SEARCH DEPTH FIRST BY n SET o CYCLE n SET c USING p SELECT * FROM t ORDER BY n;
WITH d AS (DELETE FROM entry WHERE account = 20 RETURNING *), i AS (INSERT INTO journal (line) SELECT note FROM d RETURNING id, line) SELECT * FROM i ORDER BY id;
WITH u AS (UPDATE account SET balance = 1 WHERE id = 50 RETURNING id, balance) SELECT u.*, a.balance FROM u JOIN account a USING (id);
SELECT id FROM account ORDER BY balance DESC NULLS LAST OFFSET 2 FETCH FIRST 3 ROWS ONLY;
SELECT id, balance FROM account WHERE id < 9 ORDER BY balance FETCH FIRST 2 ROWS WITH TIES;
SELECT id FROM account WHERE id < 3 ORDER BY id FOR UPDATE;
SELECT a.id FROM account a JOIN entry e ON e.account = a.id WHERE a.id = 3 ORDER BY e.number FOR SHARE OF a NOWAIT;
SELECT id FROM account WHERE id < 3 ORDER BY id FOR NO KEY UPDATE SKIP LOCKED;
SELECT id FROM account TABLESAMPLE SYSTEM (100) WHERE id < 3 ORDER BY id;
SELECT * FROM ROWS FROM (generate_series(1, 2), unnest(ARRAY['a', 'b'])) AS r(x, y);
SELECT x.* FROM account, jsonb_to_record(extra) AS x(n int) WHERE id = 4;
SELECT id, CASE WHEN id = 1 THEN 'one' ELSE 'more' END, coalesce(tags[2], '-'), extra -> 'n', extra @> '{"n": 1}', tags[1:2], owner || '!', balance::text FROM account WHERE id < 3 ORDER BY id;
SELECT id AS a, id AS a, 1, 'x', NULL FROM account WHERE id = 1;
SELECT /* FROM here */ id -- FROM there
FROM account /* /* nested */ */ WHERE owner <> 'FROM' AND id = 1;
SELECT E'FROM \' account', U&'\0041', $$FROM$$, $a$ $$ $a$, B'101', X'1F', 'two'
'lines', id FROM account WHERE id = 1;
SELECT extract(epoch FROM opened)::int, substring(owner FROM 1 FOR 3), trim(BOTH 'o' FROM owner), position('n' IN owner), overlay(owner PLACING 'X' FROM 2) FROM account WHERE id = 1;
SELECT id FROM account WHERE owner IS DISTINCT FROM 'x' AND id = 1;
SELECT id, 'ä', "id" FROM account WHERE 'ö' < 'ü' AND id = 1;
SELECT current_user, id FROM account WHERE id = 1;
-- Writes
INSERT INTO account VALUES (100, 'new'), (101, 'new');
INSERT INTO account (id, owner) VALUES (102, DEFAULT);
INSERT INTO account (id, owner) SELECT id + 100, owner FROM account WHERE id IN (3, 4) RETURNING *;
INSERT INTO account AS a (id, owner) VALUES (100, 'again') ON CONFLICT (id) DO UPDATE SET owner = excluded.owner || a.owner WHERE a.id > 5 RETURNING a.*, xmax <> 0 AS changed;
INSERT INTO account (id, owner) VALUES (100, 'again') ON CONFLICT DO NOTHING RETURNING id;
INSERT INTO account (id, owner) VALUES (100, 'again'), (110, 'more') ON CONFLICT ON CONSTRAINT account_pkey DO NOTHING;
INSERT INTO journal DEFAULT VALUES;
INSERT INTO journal DEFAULT VALUES RETURNING *;
UPDATE account SET balance = balance * 2, owner = DEFAULT WHERE id = 100;
UPDATE account SET (balance, owner) = (SELECT sum(amount), 'summed' FROM entry WHERE account = 3) WHERE id = 101 RETURNING id, balance, owner;
UPDATE account a SET balance = e.amount FROM entry e WHERE e.account = a.id AND e.number = 1 AND a.id < 4;
UPDATE account a SET balance = e.amount FROM entry e WHERE e.account = a.id AND e.number = 1 AND a.id < 4 RETURNING a.id, e.*;
UPDATE account SET tags[2] = 'set' WHERE id = 3;
UPDATE account SET id = id + 1000 WHERE id >= 100 RETURNING id;
UPDATE keyless SET b = b || '!' WHERE a < 3 RETURNING *;
UPDATE account SET balance = 0 WHERE false;
DELETE FROM account WHERE id > 1000 RETURNING id, owner;
DELETE FROM entry USING account WHERE account.id = entry.account AND account.id = 19;
DELETE FROM entry USING account a WHERE a.id = entry.account AND a.id = 18 RETURNING entry.*, a.owner;
DELETE FROM keyless WHERE a = 10;
MERGE INTO account a USING (VALUES (1, 'merged'), (200, 'fresh')) v(id, owner) ON v.id = a.id WHEN MATCHED THEN UPDATE SET owner = v.owner WHEN NOT MATCHED THEN INSERT (id, owner) VALUES (v.id, v.owner);
MERGE INTO account a USING keyless k ON k.a + 199 = a.id WHEN MATCHED AND a.id = 200 THEN DELETE WHEN NOT MATCHED THEN DO NOTHING;
SELECT id, owner FROM account WHERE id IN (1, 200) ORDER BY id;
SELECT 1 AS x INTO made_of FROM account WHERE id = 1;
CREATE TABLE made_as AS SELECT id, owner FROM account WHERE id < 4 WITH DATA;
SELECT * FROM made_as ORDER BY id;
COPY (SELECT id, owner FROM account WHERE id < 4 ORDER BY id) TO STDOUT WITH (FORMAT csv, HEADER, FORCE_QUOTE *);
COPY keyless FROM STDIN;
20	tab
21	\N
\.
COPY keyless FROM STDIN WITH (FORMAT csv) WHERE a > 22;
22,x
23,"y ""z"""
\.
\copy (SELECT a, b FROM keyless WHERE a > 5 ORDER BY a) to stdout
SELECT * FROM keyless WHERE a >= 20 ORDER BY a;
TRUNCATE keyless;
TRUNCATE journal RESTART IDENTITY CASCADE;
-- Transactions
BEGIN;
SELECT balance FROM account WHERE id = 7;
SAVEPOINT one;
UPDATE account SET balance = 7 WHERE id = 7;
SAVEPOINT two;
SELECT 1/0 FROM account;
SELECT balance FROM account WHERE id = 7;
ROLLBACK TO two;
SELECT balance FROM account WHERE id = 7;
RELEASE one;
COMMIT AND CHAIN;
SELECT balance FROM account WHERE id = 7;
ROLLBACK AND CHAIN;
END;
COMMIT;
START TRANSACTION ISOLATION LEVEL SERIALIZABLE, READ ONLY, DEFERRABLE;
SELECT balance FROM account WHERE id = 8;
UPDATE account SET balance = 1 WHERE id = 8;
SELECT balance FROM account WHERE id = 8;
COMMIT;
BEGIN ISOLATION LEVEL REPEATABLE READ;
SELECT balance FROM account WHERE id = 8000;
SELECT balance FROM account WHERE id = 8;
SET TRANSACTION ISOLATION LEVEL SERIALIZABLE;
ABORT;
BEGIN; SELECT balance FROM account WHERE id = 8; UPDATE account SET balance = 2 WHERE id = 8; COMMIT;
SELECT 1 \; SELECT balance FROM account WHERE id = 8 \; UPDATE account SET balance = 3 WHERE id = 8 RETURNING id;
SELECT balance FROM account WHERE id = 8 \; SELECT 1/0 \; SELECT 2;
BEGIN \; SELECT balance FROM account WHERE id = 8 \; COMMIT \; SELECT owner FROM account WHERE id = 8;
SET default_transaction_isolation TO serializable;
SELECT balance FROM account WHERE id = 8;
RESET default_transaction_isolation;
\set AUTOCOMMIT off
SELECT balance FROM account WHERE id = 8;
UPDATE account SET balance = 4 WHERE id = 8;
COMMIT;
\set AUTOCOMMIT on
\set ON_ERROR_ROLLBACK on
BEGIN;
SELECT nope FROM account;
SELECT balance FROM account WHERE id = 8;
UPDATE account SET balance = 5 WHERE id = 8;
COMMIT;
\set ON_ERROR_ROLLBACK off
BEGIN;
UPDATE account SET balance = 6 WHERE id = 8;
PREPARE TRANSACTION 'psql_queries';
SELECT balance FROM account WHERE id = 8;
COMMIT PREPARED 'psql_queries';
SELECT balance FROM account WHERE id = 8;
BEGIN;
DELETE FROM account WHERE id = 8;
PREPARE TRANSACTION 'psql_queries';
ROLLBACK PREPARED 'psql_queries';
-- Cursors and prepared statements
\set FETCH_COUNT 4
SELECT id, owner FROM account WHERE id < 11 ORDER BY id;
SELECT id, owner, 1 / (9 - id) FROM account WHERE id < 11 ORDER BY id;
\unset FETCH_COUNT
BEGIN;
DECLARE c SCROLL CURSOR FOR SELECT id, balance FROM account WHERE id < 20 ORDER BY id;
FETCH 3 FROM c;
FETCH PRIOR FROM c;
FETCH ABSOLUTE 7 FROM c;
FETCH RELATIVE -2 IN c;
FETCH LAST FROM c;
FETCH BACKWARD 2 FROM c;
MOVE FIRST IN c;
FETCH c;
FETCH FORWARD ALL c;
FETCH c;
CLOSE c;
FETCH c;
ROLLBACK;
BEGIN;
DECLARE d CURSOR FOR SELECT * FROM account WHERE id < 4 ORDER BY id FOR UPDATE;
FETCH d;
UPDATE account SET balance = 99 WHERE CURRENT OF d;
FETCH d;
DELETE FROM account WHERE CURRENT OF d RETURNING id;
ROLLBACK;
BEGIN;
DECLARE h CURSOR WITH HOLD FOR SELECT id, owner FROM account WHERE id < 5 ORDER BY id;
DECLARE b BINARY CURSOR FOR SELECT id FROM account WHERE id = 65;
COMMIT;
FETCH 2 FROM h;
SELECT name, is_holdable, is_binary FROM pg_cursors ORDER BY name; -- its text may be a rewritten one
CLOSE ALL;
PREPARE p (int) AS SELECT id, balance FROM account WHERE id = $1;
EXECUTE p (3);
EXECUTE p (4);
EXECUTE p (4);
PREPARE w AS UPDATE account SET balance = $1 WHERE id = $2;
EXECUTE w (3, 3);
EXECUTE w (3, 3);
EXECUTE p (nope);
EXECUTE p (1, 2);
EXECUTE p ('x');
PREPARE p AS SELECT 1;
CREATE TABLE executed AS EXECUTE p (5);
TABLE executed;
EXPLAIN (COSTS OFF) EXECUTE p (5);
DEALLOCATE p;
EXECUTE p (3);
DEALLOCATE ALL;
-- Not rewritten, so that it shows the client's own
EXPLAIN (COSTS OFF) SELECT id, owner FROM account WHERE id = 3;
EXPLAIN (COSTS OFF, VERBOSE) SELECT a.id, e.note FROM account a JOIN entry e ON e.account = a.id WHERE a.id = 3;
EXPLAIN (COSTS OFF, VERBOSE) UPDATE account SET balance = 1 WHERE id = 3;
EXPLAIN (ANALYZE, COSTS OFF, TIMING OFF, SUMMARY OFF) SELECT id FROM account WHERE id < 5;
EXPLAIN (COSTS OFF, FORMAT json) DELETE FROM entry WHERE account = 3;
-- Settings
SET client_encoding TO 'LATIN1';
SELECT 'x', id FROM account WHERE id = 3;
RESET client_encoding;
SET standard_conforming_strings TO off;
SELECT 'a\'b', id FROM account WHERE id = 3;
RESET standard_conforming_strings;
SET timezone TO 'America/New_York';
SELECT opened FROM account WHERE id = 3;
SET datestyle TO 'SQL, DMY';
SELECT opened, id FROM account WHERE id = 3;
SET intervalstyle TO iso_8601;
SELECT opened - opened + interval '1 day 2 hours', id FROM account WHERE id = 3;
SET extra_float_digits TO 0;
SELECT id / 3.0::float8 FROM account WHERE id = 1;
SET search_path TO public;
SELECT id FROM account WHERE id = 3;
SELECT id FROM psql_queries.account WHERE id = 3;
SELECT set_config('search_path', 'psql_queries', false);
SELECT id FROM account WHERE id = 3;
RESET ALL;
SHOW search_path;
SET SESSION CHARACTERISTICS AS TRANSACTION ISOLATION LEVEL REPEATABLE READ;
SELECT id FROM account WHERE id = 3;
LISTEN x;
UNLISTEN *;
CHECKPOINT;
ANALYZE account;
VACUUM account;
LOCK TABLE account;
BEGIN; LOCK TABLE account IN SHARE MODE; SELECT id FROM account WHERE id = 3; COMMIT;
DO $$ DECLARE r record; BEGIN FOR r IN SELECT id, owner FROM account WHERE id < 4 ORDER BY id LOOP RAISE NOTICE '% %', r.id, r.owner; END LOOP; END $$;
SELECT pg_advisory_xact_lock(5), id FROM account WHERE id = 3;
DISCARD PLANS;
DISCARD TEMP;
DISCARD ALL;
SELECT id FROM account WHERE id = 3;
SELECT id FROM account WHERE id = 3;
