"""Common calls of psycopg 3, with results as text and as binary. Prints each answer."""
import asyncio
import logging
import threading
import time

import psycopg
from psycopg import rows

SAY = lambda *what: print(*(repr(each) for each in what))
logging.disable(logging.WARNING)  # of a pipeline's end: it depends on when its error was read


def told(error):
    its = error.diag
    SAY(error.sqlstate, its.message_primary, its.message_detail, its.message_hint, its.statement_position, its.context, its.constraint_name)


def tried(connection, text, values=None, **more):
    cursor = connection.cursor(binary=more.pop("binary", False))
    try:
        cursor.execute(text, values, **more)
        while True:
            names = [(each.name, each.type_code) for each in cursor.description or ()]
            SAY(cursor.statusmessage, cursor.rowcount, names, cursor.fetchall() if names else None)
            if not cursor.nextset():
                break
    except psycopg.Error as error:
        told(error)
        if not connection.autocommit:
            connection.rollback()


def usual(connection, binary):
    for i in range(8):
        prepare = (None, True, False)[i % 3]
        for text, values in (
            ("SELECT balance, id FROM account WHERE id = %s", (i,)),
            ("SELECT id, owner, balance, opened, tags, extra FROM account WHERE id = ANY(%s) ORDER BY id", ([i, i + 1],)),
            ("UPDATE account SET balance = balance + %s WHERE id = %s", (1, i)),
            ("UPDATE account SET balance = balance + %s WHERE id = %s RETURNING id, owner", (1, i)),
            ("SELECT a.owner, e.amount, e.note FROM account a LEFT JOIN entry e ON e.account = a.id WHERE a.id = %s ORDER BY e.number", (i + 18,)),
            ("INSERT INTO journal (line) VALUES (%s), (%s) RETURNING id, at", ("x", None)),
            ("SELECT owner, count(*) FROM account WHERE id < %s GROUP BY owner ORDER BY owner", (i * 5,)),
            ("WITH moved AS (DELETE FROM entry WHERE account = %s RETURNING *) SELECT * FROM moved ORDER BY 1, 2", (i,)),
            ("SELECT id, rank() OVER (PARTITION BY owner ORDER BY id) FROM account WHERE id < %s ORDER BY id", (i,)),
            ("INSERT INTO entry VALUES (%s, 7, 1) ON CONFLICT DO NOTHING", (i + 1,)),
        ):
            tried(connection, text, values, binary=binary, prepare=prepare)
        (connection.rollback if i == 4 else connection.commit)()


connection = psycopg.connect("")
for binary in (False, True):
    usual(connection, binary)
for level in psycopg.IsolationLevel:
    connection.isolation_level = level
    for read_only in (True, False):
        connection.read_only = read_only
        with connection.transaction():
            tried(connection, "SELECT current_setting('transaction_isolation'), current_setting('transaction_read_only')")
            tried(connection, "SELECT balance FROM account WHERE id = 2")
            tried(connection, "SELECT balance FROM account WHERE id = 2000")
    with connection.transaction():
        with connection.transaction("inner") as inner:
            tried(connection, "UPDATE account SET balance = 2 WHERE id = 2")
            raise psycopg.Rollback(inner)
        tried(connection, "UPDATE account SET balance = balance + 2 WHERE id = 2 RETURNING balance")
connection.isolation_level = connection.read_only = None
for text in ("SELECT nope FROM account", "SELECT 'ü' FROM account WHERE nö = 1", "SELECT id FROM account LIMIT -1", "INSERT INTO account VALUES (1, 'x')",
             "SELECT id, balance / 0 FROM account WHERE id = 5", "SELECT owner FROM account WHERE id = 1 1", "SELECT id FROM account HAVING id > 1",
             "SELECT 1; SELECT id FROM account WHERE id = 3; SELECT nope FROM account; SELECT 4", "SELECT id FROM account WHERE id = 3; SELECT owner FROM account WHERE id = 4"):
    for _ in range(2):
        tried(connection, text)
        tried(connection, text, binary=True)
    connection.rollback()
# Pipelines
for _ in range(3):
    with connection.pipeline() as pipeline:
        asked = []
        for i in range(6):
            asked.append(connection.execute("SELECT balance, id FROM account WHERE id = %s", (i,)))
            asked.append(connection.execute("UPDATE account SET balance = balance + 1 WHERE id = %s RETURNING balance", (i,)))
            connection.execute("INSERT INTO journal (line) VALUES ('pipelined')")
        pipeline.sync()
        for each in asked:
            SAY(each.fetchall(), each.rowcount, each.statusmessage)
    connection.commit()
for failing in ("SELECT nope FROM account", "INSERT INTO account VALUES (1, 'x')", "SELECT 1/0"):
    try:
        with connection.pipeline():
            one = connection.execute("SELECT balance FROM account WHERE id = 1")
            connection.execute(failing)
            connection.execute("UPDATE account SET balance = 0 WHERE id = 1")
    except psycopg.Error as error:
        told(error)
    connection.rollback()
with connection.pipeline():
    with connection.transaction():
        connection.execute("UPDATE account SET balance = 3 WHERE id = 3")
    with connection.cursor() as cursor:
        cursor.executemany("INSERT INTO journal (line) VALUES (%s) RETURNING id, line", [("m%d" % i,) for i in range(5)], returning=True)
        while True:
            SAY(cursor.fetchall())
            if not cursor.nextset():
                break
connection.commit()
with connection.cursor() as cursor:
    cursor.executemany("UPDATE account SET balance = %s WHERE id = %s", [(i, i) for i in range(30)])
    SAY(cursor.rowcount)
# Server-side cursors, and streams
for name, options in (("one", {}), ("two", {"scrollable": True}), ("three", {"withhold": True}), ("four", {"scrollable": False})):
    for binary in (False, True):
        with connection.cursor(name, **options) as cursor:
            cursor.execute("SELECT id, balance, tags FROM account WHERE id > %s ORDER BY id", (3,), binary=binary)
            SAY([(each.name, each.type_code) for each in cursor.description])
            SAY(cursor.fetchone(), cursor.fetchmany(4))
            if name == "two":
                cursor.scroll(-3)
                SAY(cursor.fetchmany(2))
            if name == "three":
                connection.commit()
            SAY(len(cursor.fetchall()))
        connection.commit()
for _ in range(3):
    for number in range(6):  # by then the proxy has looked at it
        with connection.transaction(), connection.cursor(f"named_{number}", row_factory=rows.dict_row) as cursor:
            cursor.execute("SELECT id, balance FROM account WHERE owner <> '' ORDER BY id")
            SAY([each.name for each in cursor.description], cursor.fetchmany(2))
        time.sleep(0.05)
    SAY(list(connection.cursor().stream("SELECT id, balance FROM account WHERE id < %s ORDER BY id", (6,))))
connection.commit()
client = psycopg.ClientCursor(connection)
SAY(client.execute("SELECT owner FROM account WHERE id = %s", (4,)).fetchall())
SAY(connection.cursor(row_factory=rows.dict_row).execute("SELECT * FROM account WHERE id = 5").fetchall())
SAY(connection.cursor(row_factory=rows.namedtuple_row).execute("SELECT id, owner FROM account WHERE id = 5").fetchone())
# COPY
with connection.cursor() as cursor:
    for options in ("", "(FORMAT csv, HEADER)", "(FORMAT binary)"):
        with cursor.copy(f"COPY (SELECT id, owner, balance FROM account WHERE id < 5 ORDER BY id) TO STDOUT {options}") as copy:
            SAY(b"".join(bytes(each) for each in copy))
    with cursor.copy("COPY keyless (a, b) FROM STDIN") as copy:
        for i in range(3000):
            copy.write_row((i, "x" * 40))
    SAY(cursor.rowcount)
    with cursor.copy("COPY entry FROM STDIN (FORMAT binary)") as copy:
        copy.set_types(["int4", "int4", "numeric", "text"])
        copy.write_row((50, 1, 3, None))
    SAY(cursor.rowcount)
    try:
        with cursor.copy("COPY keyless FROM STDIN") as copy:
            copy.write("1\tx\n")
            raise KeyError("given up")
    except psycopg.Error as error:
        told(error)
    connection.rollback()
    try:
        with cursor.copy("COPY entry FROM STDIN") as copy:
            copy.write("7777\t1\t1\tx\n")
    except psycopg.Error as error:
        told(error)
connection.rollback()
# Prepared after several uses, followed by schema changes
for text in ("", "ALTER TABLE account ADD COLUMN added int", "ALTER TABLE account DROP COLUMN added", "SET search_path TO public", "RESET search_path",
             "CREATE TEMP TABLE account AS SELECT 1 AS id, 2 AS balance", "DROP TABLE pg_temp.account", "DEALLOCATE ALL"):
    if text:
        tried(connection, text)
        connection.commit()
    for _ in range(7):
        tried(connection, "SELECT balance FROM account WHERE id = %s", (1,))
        tried(connection, "SELECT * FROM keyless WHERE a = %s", (1,))
    connection.commit()
# Two-phase commit, LISTEN, cancel
connection.tpc_begin("psycopg3 two phases")
tried(connection, "UPDATE account SET balance = 40 WHERE id = 40")
connection.tpc_prepare()
connection.tpc_commit()
tried(connection, "SELECT balance FROM account WHERE id = 40")
connection.commit()
connection.autocommit = True
heard = []
connection.add_notify_handler(heard.append)
connection.execute("LISTEN psycopg3_channel")
other = psycopg.connect("", autocommit=True)
for payload in ("one", "two"):
    other.execute("SELECT pg_notify('psycopg3_channel', %s)", (payload,))
    while not heard or heard[-1].payload != payload:
        connection.execute("SELECT balance FROM account WHERE id = 1")
SAY([each.payload for each in heard])
asleep = threading.Thread(target=tried, args=(connection, "SELECT pg_sleep(%s)", (100,)))
asleep.start()
while not other.execute("SELECT count(*) FROM pg_stat_activity WHERE wait_event = 'PgSleep' AND usename = current_user").fetchone()[0]:
    pass
connection.cancel()
asleep.join()
tried(connection, "SELECT repeat('ü', 3000000) IS NOT NULL, id FROM account WHERE id = 3")
for binary in (False, True):
    for _ in range(3):
        cursor = connection.cursor(binary=binary)
        SAY([len(each[0]) for each in cursor.execute("SELECT repeat('ü', 600000), id FROM account WHERE id < 4 ORDER BY id").fetchall()])


async def beside():
    async with await psycopg.AsyncConnection.connect("", autocommit=True) as connection:
        for i in range(4):
            cursor = await connection.execute("SELECT balance, owner FROM account WHERE id = %s", (i,))
            SAY(await cursor.fetchall())
            async with connection.transaction():
                await connection.execute("UPDATE account SET balance = 1 WHERE id = %s", (i,))
        async with connection.pipeline():
            cursor = await connection.execute("SELECT owner FROM account WHERE id = 1")
            SAY(await cursor.fetchone())


asyncio.run(beside())
connection.close()
SAY("end")
