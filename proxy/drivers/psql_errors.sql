-- Errors of each kind, several times each: the proxy tries statements when there is time. Positions are the client's.
\set VERBOSITY verbose
\set SHOW_CONTEXT always
CREATE FUNCTION twice(text) RETURNS SETOF text LANGUAGE sql AS 'SELECT $1 UNION ALL SELECT $1';
CREATE TABLE checked (id int PRIMARY KEY, positive int CHECK (positive > 0), code varchar(3), day date, UNIQUE (code), EXCLUDE USING btree (day WITH =));
INSERT INTO checked VALUES (1, 1, 'a', '2024-01-01'), (2, 2, 'b', '2024-01-02');
CREATE FUNCTION fails(int) RETURNS int LANGUAGE plpgsql AS $$ BEGIN IF $1 > 1 THEN RAISE EXCEPTION 'failed at %', $1 USING HINT = 'a hint', DETAIL = 'a detail', ERRCODE = 'P0099', COLUMN = 'c', TABLE = 't'; END IF; RETURN (SELECT nope FROM checked); END $$;
CREATE TABLE wrong AS SELECT line, row_number() OVER () AS n FROM (VALUES
    ('SELECT nope FROM checked'), ('SELECT id, nope FROM checked WHERE id = 1'), ('SELECT id FROM checked WHERE nope = 1'),
    ('SELECT id FROM checked WHERE id = 1 ORDER BY nope'), ('SELECT id FROM nothing WHERE id = 1'), ('SELECT x.id FROM checked'),
    ('SELECT ''ü'', id, ''ö'', nope FROM checked'), ('SELECT id /* ü */ FROM checked WHERE ''ä'' = nope'),
    ('SELECT id FROM checked, checked'), ('SELECT id FROM checked a, checked b'), ('SELECT a.id FROM checked a, checked b WHERE id = 1'),
    ('SELECT id FROM checked WHERE id = ''x'''), ('SELECT id FROM checked WHERE id'), ('SELECT id FROM checked WHERE id = 1 AND code'),
    ('SELECT id + code FROM checked'), ('SELECT nofunction(id) FROM checked'), ('SELECT id FROM checked GROUP BY code'),
    ('SELECT id, count(*) FROM checked'), ('SELECT id FROM checked WHERE count(*) = 1'), ('SELECT id FROM checked HAVING id = 1'),
    ('SELECT 1/0, id FROM checked'), ('SELECT id, 1/(id - 2) FROM checked ORDER BY id'), ('SELECT id FROM checked LIMIT -1'),
    ('SELECT id FROM checked LIMIT id'), ('SELECT id::date FROM checked'), ('SELECT code::int FROM checked'), ('SELECT id FROM checked WHERE'),
    ('SELECT id checked WHERE id = 1'), ('SELECT id FROM checked WHERE id = = 1'), ('SELECT id FROM checked WHERE (id = 1'), ('SELECT ''x FROM checked'),
    ('SELEC id FROM checked'), ('SELECT id FROM checked UNION SELECT code FROM checked'), ('SELECT id FROM checked UNION SELECT 1, 2'),
    ('SELECT DISTINCT id FROM checked ORDER BY code'), ('SELECT id FROM checked FOR UPDATE OF nope'), ('SELECT count(*) FROM checked FOR UPDATE'),
    ('SELECT (SELECT id FROM checked) FROM checked'), ('SELECT id FROM checked WHERE id = (SELECT id FROM checked)'), ('SELECT id FROM checked WHERE id IN (SELECT id, code FROM checked)'),
    ('SELECT sum(id) OVER (ORDER BY nope) FROM checked'), ('SELECT id FROM checked WHERE row_number() OVER () = 1'), ('SELECT twice(code), fails(id) FROM checked ORDER BY id'),
    ('SELECT fails(id) FROM checked WHERE id = 2'), ('SELECT id, fails(1) FROM checked'), ('SELECT id FROM checked WHERE $1 = id'), ('SELECT id FROM checked JOIN checked c ON nope = 1'),
    ('SELECT id FROM checked JOIN checked c USING (nope)'), ('SELECT * FROM checked NATURAL JOIN nothing'), ('WITH x AS (SELECT nope FROM checked) SELECT * FROM x'),
    ('WITH x AS (SELECT id FROM checked) SELECT nope FROM x'), ('WITH RECURSIVE x AS (SELECT id FROM x) SELECT id FROM x'), ('SELECT nope.* FROM checked'), ('SELECT checked.nope FROM checked'),
    ('SELECT id.x FROM checked'), ('SELECT id[1] FROM checked'), ('SELECT id FROM checked WHERE code ~ ''('''), ('SELECT day + ''x'' FROM checked'), ('SELECT id COLLATE "nope" FROM checked'),
    ('INSERT INTO checked VALUES (1, 1)'), ('INSERT INTO checked VALUES (3, -1)'), ('INSERT INTO checked VALUES (3, 1, ''abcd'')'), ('INSERT INTO checked VALUES (3, 1, ''a'')'),
    ('INSERT INTO checked VALUES (3, 1, ''c'', ''2024-01-01'')'), ('INSERT INTO checked VALUES (3, 1, ''c'', ''x'')'), ('INSERT INTO checked (id, nope) VALUES (1, 2)'), ('INSERT INTO checked (id) VALUES (1, 2)'),
    ('INSERT INTO checked (id, id) VALUES (1, 2)'), ('INSERT INTO checked VALUES (NULL)'), ('INSERT INTO checked VALUES (99999999999)'), ('INSERT INTO checked VALUES (1) ON CONFLICT (nope) DO NOTHING'),
    ('INSERT INTO checked VALUES (1) ON CONFLICT (day) DO NOTHING'), ('INSERT INTO checked VALUES (7), (7) ON CONFLICT (id) DO UPDATE SET day = NULL'), ('INSERT INTO checked VALUES (1) RETURNING nope'), ('INSERT INTO entry VALUES (777, 1)'),
    ('INSERT INTO nothing VALUES (1)'), ('INSERT INTO checked SELECT code FROM checked'), ('UPDATE checked SET nope = 1'), ('UPDATE checked SET id = nope WHERE id = 1'), ('UPDATE checked SET id = 2 WHERE id = 1'),
    ('UPDATE checked SET positive = 0 WHERE id = 1'), ('UPDATE checked SET id = 1 WHERE nope = 1'), ('UPDATE checked SET id = 1, id = 2'), ('UPDATE checked SET id = ''ü'' WHERE id = 1'), ('UPDATE checked SET (id, code) = (1)'),
    ('UPDATE checked SET positive = 1 WHERE id = 1 RETURNING id, nope'), ('UPDATE checked SET code = ''abcd'' WHERE id = 1'), ('UPDATE nothing SET id = 1'), ('UPDATE checked SET positive = 1/0 WHERE id = 1'),
    ('DELETE FROM checked WHERE nope = 1'), ('DELETE FROM nothing'), ('DELETE FROM checked WHERE id = 1 RETURNING ''ü'', nope'), ('DELETE FROM checked USING nothing'), ('DELETE FROM account WHERE id = 1/0'),
    ('MERGE INTO checked c USING checked d ON true WHEN MATCHED THEN UPDATE SET positive = 3'), ('TRUNCATE nothing'), ('TRUNCATE account'), ('DROP TABLE nothing'), ('DROP TABLE account'), ('ALTER TABLE checked ADD id int'),
    ('ALTER TABLE checked DROP nope'), ('CREATE TABLE checked (id int)'), ('CREATE TABLE x (id nope)'), ('CREATE INDEX ON checked (nope)'), ('CREATE VIEW v AS SELECT nope FROM checked'), ('CREATE FUNCTION f() RETURNS int LANGUAGE sql AS ''SELECT nope FROM checked'''),
    ('SET nothing TO 1'), ('SET datestyle TO ''nothing'''), ('SHOW nothing'), ('SAVEPOINT a'), ('ROLLBACK TO a'), ('RELEASE a'), ('FETCH c'), ('CLOSE c'), ('DECLARE c CURSOR FOR SELECT id FROM checked'), ('EXECUTE nothing'), ('EXECUTE nothing (1)'), ('DEALLOCATE nothing'),
    ('PREPARE a AS SELECT nope FROM checked'), ('PREPARE a AS SELECT id FROM checked WHERE id = $2'), ('COMMIT PREPARED ''nothing'''), ('PREPARE TRANSACTION ''x'''), ('LOCK TABLE checked'), ('COPY nothing TO STDOUT'), ('COPY checked (nope) TO STDOUT'), ('COPY (SELECT nope FROM checked) TO STDOUT'),
    ('COPY checked TO ''/nowhere/at/all'''), ('CALL nothing()'), ('DO ''nonsense'''), ('DO $$ BEGIN PERFORM nope FROM checked; END $$'), ('DO $$ BEGIN UPDATE checked SET positive = -1; END $$'), ('GRANT SELECT ON nothing TO public'), ('SET ROLE nothing'), ('SET ROLE postgres'),
    ('SELECT * FROM pg_authid'), ('CREATE EXTENSION nothing'), ('EXPLAIN SELECT nope FROM checked'), ('EXPLAIN (NOPE) SELECT id FROM checked'), ('VACUUM nothing'), ('VACUUM (nope) checked'), ('REINDEX TABLE nothing'), ('CLUSTER checked'), ('COMMENT ON TABLE nothing IS ''x'''),
    ('NOTIFY "", ''x'''), ('TABLE nothing'), ('VALUES (1), (1, 2)'), ('SELECT 1 FROM checked WHERE id = 1 FOR nothing'), ('SELECT id INTO checked FROM checked'), ('BEGIN ISOLATION LEVEL NOTHING'), ('SET TRANSACTION SNAPSHOT ''nothing'''), ('ALTER SYSTEM SET work_mem TO 1'),
    ('SELECT id FROM checked WHERE id = 1; SELECT nope FROM checked'), ('SELECT id FROM checked WHERE id = 1 WINDOW w AS (PARTITION BY nope)'), ('SELECT xmin, nope FROM checked'), ('SELECT cmin.x FROM checked'), ('SELECT id FROM checked TABLESAMPLE nothing (1)'),
    ('SELECT id FROM LATERAL (SELECT id) x'), ('SELECT c.id FROM checked c JOIN checked ON checked.id = nope.id'), ('SELECT ALL id, FROM checked'), ('SELECT id FROM checked c (a, b, c, d, e)'), ('SELECT a, nope FROM checked c (a)'), ('SELECT U&''\00'' FROM checked'), ('SELECT E''\xff'' FROM checked'), ('SELECT repeat(''x'', -1)::int FROM checked')
) x(line);
SELECT line FROM wrong, generate_series(1, 3) g ORDER BY n, g \gexec
-- In a block
\set ON_ERROR_ROLLBACK on
BEGIN;
SELECT line FROM wrong, generate_series(1, 2) g WHERE line NOT LIKE 'PREPARE TRANS%' ORDER BY n, g \gexec
ROLLBACK;
\set ON_ERROR_ROLLBACK off
-- A block that has failed
BEGIN ISOLATION LEVEL SERIALIZABLE;
SELECT id FROM checked WHERE id = 1;
SELECT nope FROM checked;
SELECT id FROM checked WHERE id = 1;
UPDATE checked SET positive = 1 WHERE id = 1;
COMMIT;
-- Constraints that wait for the end
CREATE TABLE waits (id int PRIMARY KEY DEFERRABLE INITIALLY DEFERRED, of int REFERENCES checked DEFERRABLE INITIALLY DEFERRED);
INSERT INTO waits VALUES (1, 999);
INSERT INTO waits VALUES (1, 1) RETURNING *;
BEGIN;
INSERT INTO waits VALUES (1, 1);
INSERT INTO waits VALUES (2, 99) RETURNING id;
SELECT * FROM waits ORDER BY id;
SET CONSTRAINTS ALL IMMEDIATE;
COMMIT;
BEGIN;
INSERT INTO waits VALUES (2, 99) RETURNING id;
COMMIT;
