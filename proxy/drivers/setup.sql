-- The tables of each driver's program, in a schema of its user's name.
CREATE TABLE account (id int PRIMARY KEY, owner text NOT NULL, balance numeric(12, 2), opened timestamptz, tags text[],
    extra jsonb);
CREATE TABLE entry (account int REFERENCES account ON DELETE CASCADE, number int, amount numeric, note text,
    PRIMARY KEY (account, number));
CREATE TABLE journal (id bigserial PRIMARY KEY, line text, at timestamptz DEFAULT '2024-02-29 12:00:00+00');
CREATE TABLE keyless (a int, b text);
CREATE TABLE blob (id uuid PRIMARY KEY, body bytea);
INSERT INTO account SELECT i, 'owner ' || i % 7, i * 10.25, timestamptz '2024-01-01 00:00:00+00' + i * interval '1 hour',
    ARRAY['a' || i, NULL, 'ü'], jsonb_build_object('n', i, 'x', NULL) FROM generate_series(1, 60) i;
INSERT INTO entry SELECT i, j, i * j, nullif('note ' || j, 'note 2') FROM generate_series(1, 20) i, generate_series(1, 3) j;
INSERT INTO keyless SELECT i, 'b' || i FROM generate_series(1, 10) i;
INSERT INTO blob SELECT ('00000000-0000-0000-0000-0000000000' || i)::uuid, decode(repeat('00ff' || i, 3), 'hex')
    FROM generate_series(10, 20) i;
ANALYZE account, entry, journal, keyless, blob;
