// Usual calls of node-postgres. Prints each answer.
'use strict';
const { Client, Pool } = require('pg');
const Cursor = require('pg-cursor');

const say = (...what) => console.log(what.map((each) => JSON.stringify(each)).join(' '));
const names = (fields) => (fields || []).map((each) => [each.name, each.dataTypeID, each.format]);

async function tried(client, ...query) {
  try {
    const all = await client.query(...query);
    for (const each of Array.isArray(all) ? all : [all]) say(each.command, each.rowCount, names(each.fields), each.rows);
  } catch (error) {
    say(error.code, error.message, error.detail, error.hint, error.position, error.constraint);
  }
}

async function usual(client) {
  for (let i = 1; i < 7; i++) {
    await tried(client, 'SELECT balance, id FROM account WHERE id = 5');
    await tried(client, 'SELECT * FROM account WHERE id = $1', [i]);
    await tried(client, { name: 'named', text: 'SELECT owner, id, tags FROM account WHERE id = ANY($1) ORDER BY id', values: [[i, 30]] });
    await tried(client, { text: 'SELECT id, owner FROM account WHERE id < $1 ORDER BY id', values: [i], rowMode: 'array' });
    await tried(client, { text: 'SELECT id FROM account WHERE id < $1 ORDER BY id', values: [i], binary: true });
    await tried(client, { name: 'update', text: 'UPDATE account SET balance = balance + 1 WHERE id = $1', values: [i] });
    await tried(client, 'UPDATE account SET balance = balance + 1 WHERE id = $1 RETURNING id, extra', [i]);
    await tried(client, 'INSERT INTO journal (line) VALUES ($1), ($2) RETURNING id, line', ['a', null]);
    await tried(client, 'SELECT count(*) FROM entry WHERE account = $1', [i]);
    await tried(client, 'INSERT INTO entry VALUES ($1, 9, 1) ON CONFLICT (account, number) DO UPDATE SET amount = entry.amount + 1 RETURNING amount', [i]);
    await tried(client, 'SELECT 1 AS one; SELECT id FROM account WHERE id = 4; UPDATE account SET balance = 4 WHERE id = 4');
    await tried(client, 'WITH d AS (DELETE FROM entry WHERE account = $1 AND number = 9 RETURNING *) SELECT * FROM d', [i]);
  }
}

async function main() {
  const client = new Client();
  await client.connect();
  await usual(client);
  for (const level of ['READ COMMITTED', 'REPEATABLE READ', 'SERIALIZABLE']) {
    for (const end of ['COMMIT', 'ROLLBACK']) {
      await tried(client, `BEGIN ISOLATION LEVEL ${level}`);
      await usual(client);
      await tried(client, 'SAVEPOINT a');
      await tried(client, 'INSERT INTO account (id, owner) VALUES ($1, $2)', [1, 'again']);
      await tried(client, 'SELECT balance FROM account WHERE id = $1', [1]);
      await tried(client, 'ROLLBACK TO a');
      await tried(client, 'SELECT balance FROM account WHERE id = $1', [4000]);
      await tried(client, end);
    }
  }
  for (const text of ['SELECT nope FROM account', "SELECT 'ü', nope FROM account", 'SELEC', 'SELECT 1/0, id FROM account', 'INSERT INTO entry VALUES (999, 1)', 'UPDATE account SET owner = NULL WHERE id = 1', '', '-- nothing']) {
    for (let i = 0; i < 3; i++) {
      await tried(client, text);
      await tried(client, text, []);
      await tried(client, { name: `wrong ${text}`, text });
    }
  }
  for (let i = 0; i < 3; i++) {
    const cursor = client.query(new Cursor('SELECT id, balance FROM account WHERE id < $1 ORDER BY id', [20]));
    for (const n of [3, 4, 100]) say(await cursor.read(n));
    await cursor.close();
    const begun = client.query(new Cursor('SELECT id, owner FROM account ORDER BY id'));
    say(await begun.read(2));
    await begun.close();
  }
  // Sent without waiting for answers
  const asked = [];
  for (let i = 0; i < 20; i++) asked.push(tried(client, i % 3 ? 'SELECT owner FROM account WHERE id = $1' : 'SELECT nope FROM account WHERE id = $1', [i]));
  await Promise.all(asked);
  for (const text of ['ALTER TABLE account ADD COLUMN added int', 'ALTER TABLE account DROP COLUMN added', 'CREATE TEMP TABLE account (id int, owner text)', 'DROP TABLE pg_temp.account', 'SET search_path TO public', 'RESET search_path', "SET timezone TO 'Asia/Tokyo'", 'DEALLOCATE ALL']) {
    await tried(client, text);
    for (let i = 0; i < 3; i++) {
      await tried(client, { name: 'star', text: 'SELECT * FROM account WHERE id = $1', values: [3] });
      await tried(client, 'SELECT owner FROM account WHERE id = $1', [3]);
    }
  }
  const other = new Client();
  await other.connect();
  const heard = new Promise((resolve) => client.once('notification', resolve));
  await client.query('LISTEN node_channel');
  await other.query("NOTIFY node_channel, 'hello'");
  say((await heard).payload);
  const noticed = new Promise((resolve) => client.once('notice', resolve));
  await client.query("DO $$ BEGIN RAISE NOTICE 'noted'; END $$");
  say((await noticed).message);
  const sleeping = tried(client, 'SELECT pg_sleep(100)');
  for (let n = '0'; n === '0';) n = (await other.query("SELECT count(*) AS n FROM pg_stat_activity WHERE wait_event = 'PgSleep' AND usename = current_user")).rows[0].n;
  await other.query('SELECT pg_cancel_backend(pid) FROM pg_stat_activity WHERE wait_event = $1 AND usename = current_user', ['PgSleep']);
  await sleeping;
  for (let i = 0; i < 3; i++) {
    say((await client.query("SELECT repeat('z', 2000000) AS z, id FROM account WHERE id = $1", [1])).rows[0].z.length);
    await tried(client, 'SELECT id, body FROM blob ORDER BY id');
  }
  const pool = new Pool({ max: 3 });
  const change = async (i) => {
    const one = await pool.connect();
    try {
      await one.query('BEGIN');
      await one.query('SELECT balance FROM account WHERE id = $1 FOR UPDATE', [i]);
      await one.query('UPDATE account SET balance = balance + 1 WHERE id = $1', [i]);
      await one.query('COMMIT');
    } finally {
      one.release();
    }
  };
  await Promise.all([40, 41, 42, 43, 44, 45, 46].map(change));
  await tried(pool, 'SELECT id, balance FROM account WHERE id BETWEEN 40 AND 46 ORDER BY id');
  await pool.end();
  await other.end();
  await client.end();
  say('end');
}

main().catch((error) => {
  console.log('fault', error);
  process.exit(1);
});
