"""Common calls of psycopg2. Prints each answer."""
import io
import threading

import psycopg2
import psycopg2.extras
from psycopg2 import errors, extensions, sql

def plain(what):
    if isinstance(what, memoryview):
        return bytes(what)
    return type(what)(plain(each) for each in what) if type(what) in (list, tuple) else what


def SAY(*what):
    print(*(repr(plain(each)) for each in what))


def tried(cursor, text, values=None):
    try:
        cursor.execute(text, values)
        rows = cursor.fetchall() if cursor.description else None
        names = [(each.name, each.type_code) for each in cursor.description or ()]
        SAY(cursor.statusmessage, cursor.rowcount, names, rows)
    except psycopg2.Error as error:
        its = error.diag
        SAY(error.pgcode, its.message_primary, its.message_detail, its.message_hint, its.statement_position)
        SAY(its.context, its.schema_name, its.table_name, its.column_name, its.constraint_name)
        if not cursor.connection.autocommit:
            cursor.connection.rollback()


connection = psycopg2.connect("")
cursor = connection.cursor()
SAY(connection.encoding, connection.server_version, connection.get_parameter_status("TimeZone"))
for i in range(6):  # the same statements repeatedly, so that the proxy tries them
    tried(cursor, "SELECT balance, id FROM account WHERE id = %s", (i,))
    tried(cursor, "SELECT * FROM account WHERE id BETWEEN %s AND %s ORDER BY id", (i, i + 3))
    tried(cursor, "UPDATE account SET balance = balance + 1 WHERE id = %s", (i,))
    tried(cursor, "UPDATE account SET balance = balance + 1 WHERE id = %s RETURNING *, 'ä'", (i,))
    tried(cursor, "INSERT INTO journal (line) VALUES (%s) RETURNING id", ("line %d" % i,))
    tried(cursor, "SELECT a.owner, e.* FROM account a JOIN entry e ON e.account = a.id WHERE a.id = %s ORDER BY 2, 3", (i,))
    tried(cursor, "SELECT count(*), sum(balance) FROM account WHERE owner = %s", ("owner %d" % i,))
    tried(cursor, "SELECT id FROM account WHERE id = %s FOR UPDATE", (i,))
    tried(cursor, "SELECT EXISTS (SELECT FROM entry WHERE account = %s)", (i,))
    tried(cursor, "DELETE FROM entry WHERE account = %s AND number = 3", (i,))
    tried(cursor, "INSERT INTO entry VALUES (%s, 9, 1) ON CONFLICT (account, number) DO UPDATE SET amount = entry.amount + 1 RETURNING *", (i + 1,))
    (connection.rollback if i == 3 else connection.commit)()
for level in ("read committed", "repeatable read", "serializable"):
    for isolation in (level, None):
        if isolation:
            connection.set_session(isolation_level=isolation, readonly=level == "serializable", deferrable=False)
        tried(cursor, "SHOW transaction_isolation")
        tried(cursor, "SELECT balance FROM account WHERE id = 3")
        tried(cursor, "UPDATE account SET balance = 0 WHERE id = 3")
        connection.commit()
connection.set_session(isolation_level="DEFAULT", readonly=False)
for text in (
    "SELECT nope FROM account", "SELECT id FROM account WHERE ä = 1", "SELEC", "SELECT * FROM nothing", "SELECT 1/0 FROM account",
    "SELECT id FROM account WHERE id = 'x'", "INSERT INTO account VALUES (1, 'a')", "INSERT INTO account VALUES (99)",
    "UPDATE account SET owner = NULL WHERE id = 1", "SELECT 'ü', id, (SELECT nope) FROM account", "SELECT id FROM account GROUP BY owner",
    "INSERT INTO entry VALUES (777, 1)", "SELECT", "", ";", "-- nothing", "SELECT ok.id FROM account ok, account WHERE id = 1",
):
    tried(cursor, text)
    tried(cursor, text)
cursor.execute("SELECT 1; SELECT balance FROM account WHERE id = 7; UPDATE account SET balance = 1 WHERE id = 8")
SAY(cursor.statusmessage, cursor.rowcount)
cursor.execute("UPDATE account SET balance = 1 WHERE id = 8; SELECT id, balance FROM account WHERE id < 5 ORDER BY id")
SAY(cursor.statusmessage, cursor.fetchall())
connection.commit()
# Server-side cursors
for hold in (False, True):
    for scroll in (None, True):
        with connection.cursor("named", withhold=hold, scrollable=scroll) as named:
            named.itersize = 7
            named.execute("SELECT id, owner, balance FROM account ORDER BY id")
            SAY(named.fetchone(), named.fetchmany(5), [each for each in named][:9])
            if scroll:
                named.scroll(3, "absolute")
                SAY(named.fetchmany(2))
            if hold:
                connection.commit()
        connection.commit()
# COPY
out = io.StringIO()
cursor.copy_expert("COPY (SELECT id, owner, tags FROM account WHERE id < 6 ORDER BY id) TO STDOUT WITH CSV HEADER", out)
SAY(out.getvalue())
cursor.copy_from(io.StringIO("100\tü\n101\t\\N\n"), "keyless", columns=("a", "b"))
out = io.StringIO()
cursor.copy_to(out, "keyless")
SAY(cursor.rowcount, out.getvalue())
try:
    cursor.copy_from(io.StringIO("1\tx\n"), "account", columns=("id", "owner"))
except psycopg2.Error as error:
    SAY(error.pgcode, str(error))
connection.rollback()
# Savepoints
for text in (
    "SAVEPOINT a", "UPDATE account SET balance = 5 WHERE id = 5", "ROLLBACK TO a", "SELECT balance FROM account WHERE id = 5",
    "SAVEPOINT b", "INSERT INTO account (id, owner) VALUES (500, 'x')", "RELEASE b", "SELECT id, owner FROM account WHERE id = 500",
    "DELETE FROM account WHERE id = 500",
):
    tried(cursor, text)
connection.commit()
# Batches
psycopg2.extras.execute_values(cursor, "INSERT INTO journal (line) VALUES %s RETURNING id, line", [("v%d" % i,) for i in range(5)])
SAY(cursor.rowcount)
psycopg2.extras.execute_batch(cursor, "UPDATE account SET balance = %s WHERE id = %s", [(i, i) for i in range(20)], page_size=6)
cursor.executemany("UPDATE account SET balance = balance + %s WHERE id = %s", [(i, i) for i in range(5)])
connection.commit()
tried(cursor, "SELECT id, balance FROM account WHERE id < 9 ORDER BY id")
with connection.cursor(cursor_factory=psycopg2.extras.RealDictCursor) as by_name:
    by_name.execute("SELECT id, owner AS id2, xmin IS NULL AS has, extra FROM account WHERE id = 4")
    SAY([dict(each) for each in by_name.fetchall()])
psycopg2.extras.register_uuid()
tried(cursor, "SELECT id, body FROM blob ORDER BY id LIMIT 3")
connection.commit()
# DDL in between, temporary tables, the search path
for text in (
    "CREATE TEMP TABLE account (id text, xmin2 int)", "SELECT * FROM account WHERE id = '3'", "SELECT balance FROM account WHERE id = '3'",
    "DROP TABLE pg_temp.account", "SELECT balance FROM account WHERE id = 3", "CREATE SCHEMA IF NOT EXISTS psycopg2_more",
    "CREATE TABLE psycopg2_more.account (id int PRIMARY KEY, balance text)", "INSERT INTO psycopg2_more.account VALUES (3, 'other')",
    "SET search_path TO psycopg2_more", "SELECT balance FROM account WHERE id = 3", "SET LOCAL search_path TO psycopg2, psycopg2_more",
    "SELECT balance FROM account WHERE id = 3", "COMMIT", "SELECT balance FROM account WHERE id = 3", "RESET search_path",
    "SELECT balance FROM account WHERE id = 3", "ALTER TABLE account ADD COLUMN added int DEFAULT 4", "SELECT * FROM account WHERE id = 3",
    "ALTER TABLE account RENAME COLUMN added TO another", "SELECT * FROM account WHERE id = 3", "ALTER TABLE account DROP COLUMN another",
    "SELECT * FROM account WHERE id = 3", "DROP SCHEMA psycopg2_more CASCADE",
    "CREATE TABLE fresh (id int GENERATED ALWAYS AS IDENTITY, x int)", "INSERT INTO fresh (x) VALUES (1), (2) RETURNING *",
    "SELECT * FROM fresh WHERE id = 1", "ALTER TABLE fresh ADD PRIMARY KEY (id)", "SELECT * FROM fresh WHERE id = 1",
    "ALTER TABLE fresh DROP CONSTRAINT fresh_pkey", "SELECT * FROM fresh WHERE id = 1", "DROP TABLE fresh", "SELECT * FROM fresh WHERE id = 1",
    "SET timezone TO 'Asia/Tokyo'", "SELECT opened FROM account WHERE id = 4", "SET datestyle TO 'German'", "SELECT opened::text FROM account WHERE id = 4",
    "SET bytea_output TO escape", "SELECT body::text FROM blob WHERE id = '00000000-0000-0000-0000-000000000012'", "RESET ALL",
):
    tried(cursor, text)
    if cursor.connection.status == extensions.STATUS_IN_TRANSACTION and text.startswith(("CREATE", "DROP", "SET t", "SET d", "SET b", "ALTER", "INSERT")):
        connection.commit()
connection.rollback()
connection.set_client_encoding("LATIN1")
tried(cursor, "SELECT tags, 'ü' FROM account WHERE id = %s AND 'ü' = tags[3]", (4,))
connection.set_client_encoding("UTF8")
tried(cursor, sql.SQL("SELECT {} FROM {} WHERE id = %s").format(sql.Identifier("balance"), sql.Identifier("psycopg2", "account")), (4,))
connection.commit()
# Two-phase commit
connection.tpc_begin(connection.xid(1, "first", "psycopg2"))
tried(cursor, "UPDATE account SET balance = 11 WHERE id = 11")
connection.tpc_prepare()
two_phase = psycopg2.connect("")
SAY([each.gtrid for each in two_phase.tpc_recover() if each.gtrid == "first"])
connection.tpc_commit()
connection.tpc_begin(connection.xid(1, "second", "psycopg2"))
tried(cursor, "UPDATE account SET balance = 12 WHERE id = 11")
connection.tpc_rollback()
tried(cursor, "SELECT balance FROM account WHERE id = 11")
connection.rollback()
# In autocommit: LISTEN, cancel, advisory locks
connection.autocommit = True
tried(cursor, "SELECT pg_advisory_lock(11), pg_try_advisory_xact_lock(12)")
tried(cursor, "SELECT pg_advisory_unlock(11)")
tried(cursor, "LISTEN psycopg2_channel")
tried(cursor, "NOTIFY psycopg2_channel, 'hello'")
other = psycopg2.connect("")
other.autocommit = True
other.cursor().execute("SELECT pg_notify('psycopg2_channel', 'from another')")
while len(connection.notifies) < 2:
    cursor.execute("SELECT balance FROM account WHERE id = 1")
SAY([(each.channel, each.payload) for each in connection.notifies])
asleep = threading.Thread(target=tried, args=(cursor, "SELECT pg_sleep(100)"))
asleep.start()
other_cursor = other.cursor()
while True:
    other_cursor.execute("SELECT count(*) FROM pg_stat_activity WHERE query LIKE 'SELECT pg_sleep(1__)' AND usename = current_user AND state = 'active' AND wait_event = 'PgSleep'")
    if other_cursor.fetchone()[0]:
        break
connection.cancel()
asleep.join()
# A conflict
first, second = psycopg2.connect(""), psycopg2.connect("")
for each in (first, second):
    each.set_session(isolation_level="SERIALIZABLE")
    with each.cursor() as its:
        tried(its, "SELECT sum(balance) FROM account WHERE id IN (21, 22)")
        tried(its, "SELECT id, balance FROM account WHERE id IN (21, 22) ORDER BY id")
for each, key in ((first, 21), (second, 22)):
    with each.cursor() as its:
        tried(its, "UPDATE account SET balance = 0 WHERE id = %s", (key,))
first.commit()
try:
    second.commit()
    SAY("both committed")
except errors.SerializationFailure as error:
    SAY(error.pgcode, str(error))
for each in (first, second):
    each.rollback()
    each.set_session(isolation_level="REPEATABLE READ")
    tried(each.cursor(), "SELECT balance FROM account WHERE id = 30")
tried(first.cursor(), "UPDATE account SET balance = 1 WHERE id = 30")
first.commit()
tried(second.cursor(), "UPDATE account SET balance = 2 WHERE id = 30")
# Notices, big rows, large objects
tried(cursor, "DO $$ BEGIN RAISE NOTICE 'noted %', 1; PERFORM balance FROM account WHERE id = 1; END $$")
SAY(connection.notices[-1:])
tried(cursor, "INSERT INTO keyless VALUES (1000, repeat('long', 500000))")
cursor.execute("SELECT a, b FROM keyless WHERE a = 1000")
SAY(len(cursor.fetchone()[1]))
cursor.execute("INSERT INTO blob VALUES ('00000000-0000-0000-0000-000000000099', %s) RETURNING length(body)", (psycopg2.Binary(bytes(range(256)) * 8000),))
SAY(cursor.fetchall())
for _ in range(3):
    cursor.execute("SELECT body, id FROM blob WHERE id = '00000000-0000-0000-0000-000000000099'")
    SAY(len(cursor.fetchone()[0]))
with other:
    other.autocommit = False
    large = other.lobject(0, "rw", 0)
    large.write("large")
    large.seek(0)
    SAY(large.read())
    large.unlink()
tried(cursor, "DISCARD ALL")
for _ in range(3):
    tried(cursor, "SELECT balance FROM account WHERE id = 1")
connection.close()
SAY("end")
