// node-postgres as a client of bench/check/proxy_matrix.py: node node_postgres.js PORT. See clients.py.
'use strict';
const { Client } = require('pg');
const readline = require('readline');

const port = Number(process.argv[2]);
const row = 2 + (process.pid % 1000);
const where = { host: '127.0.0.1', port, user: 'postgres', database: 'postgres' };
let client;

async function connect(ssl) {
  client = new Client({ ...where, ssl });
  client.on('error', () => {}); // a connection that is lost while nothing runs: the next query says so
  await client.connect();
}

const run = async (text, values) => {
  const its = await client.query(text, values);
  return String(its.rows.length ? Object.values(its.rows[0])[0] : its.rowCount);
};

async function cancelled() {
  const text = 'SELECT pg_sleep(60)';
  setTimeout(() => new Client(where).cancel(client, client.activeQuery), 500);
  return run(text);
}

const calls = {
  connect: () => connect(false),
  connect_tls: () => connect({ rejectUnauthorized: false }),
  close: () => Promise.race([client.end(), new Promise((done) => setTimeout(done, 500))]), // end() of a lost one never ends
  ask: () => run('SELECT n FROM matrix WHERE id = $1', [1]),
  begin: () => run('BEGIN'),
  write: () => run('UPDATE matrix SET n = n + 1 WHERE id = $1', [row]),
  commit: () => run('COMMIT'),
  sleep: () => run('SELECT pg_sleep(60)'),
  cancelled,
  copy: async () => 'it has no COPY',
};

async function main() {
  for await (const line of readline.createInterface({ input: process.stdin })) {
    let its;
    try {
      its = { ok: (await calls[line.trim()]()) || '' };
    } catch (error) {
      const sent = /^[0-9A-Z]{5}$/.test(error.code || '');
      its = { error: error.constructor.name, state: sent ? error.code : null, text: error.message };
    }
    console.log(JSON.stringify(its));
  }
}

main();
