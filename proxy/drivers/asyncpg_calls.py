"""Common calls of asyncpg. Prints each answer."""
import asyncio
import io

import asyncpg

SAY = lambda *what: print(*(repr(each) for each in what))


def plain(what):
    if isinstance(what, asyncpg.Record):
        return dict(what)
    return [plain(each) for each in what] if isinstance(what, list) else what


async def tried(call):
    try:
        SAY(plain(await call))
    except asyncpg.PostgresError as error:
        SAY(type(error).__name__, error.sqlstate, str(error), error.detail, error.hint, error.position, getattr(error, "constraint_name", None))


async def usual(c):
    for i in range(5):
        await tried(c.fetch("SELECT * FROM account WHERE id = $1", i))
        await tried(c.fetch("SELECT id, balance, 'x'::text FROM account WHERE id = ANY($1::int[]) ORDER BY id", [i, i + 1, i + 2]))
        await tried(c.fetchval("SELECT balance FROM account WHERE id = $1", i))
        await tried(c.fetchrow("UPDATE account SET balance = balance + $1 WHERE id = $2 RETURNING id, balance", 3, i))
        await tried(c.execute("UPDATE account SET balance = balance + $1 WHERE id = $2", 3, i))
        await tried(c.execute("UPDATE account SET balance = 5 WHERE id = 5"))
        await tried(c.fetch("INSERT INTO journal (line) SELECT 'line ' || g FROM generate_series(1, $1::int) g RETURNING id", i))
        await tried(c.fetch("SELECT e.note, a.* FROM entry e JOIN account a ON a.id = e.account WHERE e.account = $1 ORDER BY e.number", i))
        await tried(c.fetchval("SELECT count(*) FROM account"))
        await tried(c.fetch("SELECT DISTINCT owner FROM account ORDER BY owner LIMIT $1", i))
        await tried(c.fetch("SELECT id FROM account WHERE id < 3 UNION SELECT number FROM entry ORDER BY 1"))
        await tried(c.fetch("WITH RECURSIVE r AS (SELECT id, owner FROM account WHERE id = $1 UNION ALL SELECT a.id, a.owner FROM account a JOIN r ON a.id = r.id + 10) SELECT * FROM r ORDER BY id", i))


async def main():
    c = await asyncpg.connect()
    await usual(c)
    await usual(c)
    for level in ("read_committed", "repeatable_read", "serializable"):
        for readonly in (False, True):
            async with c.transaction(isolation=level, readonly=readonly):
                await tried(c.fetchval("SHOW transaction_isolation"))
                await tried(c.fetchval("SELECT balance FROM account WHERE id = $1", 7))
                await tried(c.fetchval("SELECT balance FROM account WHERE id = $1", 7000))
                if not readonly:
                    await tried(c.execute("UPDATE account SET balance = balance + 1 WHERE id = $1", 7))
                    try:
                        async with c.transaction():
                            await c.execute("UPDATE account SET balance = 0 WHERE id = $1", 7)
                            await c.execute("INSERT INTO account VALUES ($1, $2)", 5, "five")
                    except asyncpg.UniqueViolationError as error:
                        SAY(str(error))
                    await tried(c.fetchrow("SELECT balance FROM account WHERE id = $1", 7))
                cursor = await c.cursor("SELECT id, balance FROM account WHERE id < 50 ORDER BY id")
                SAY(plain(await cursor.fetch(4)), await cursor.forward(3), plain(await cursor.fetchrow()), plain(await cursor.fetch(3)))
                async for record in c.cursor("SELECT id, owner FROM account WHERE id < $1 ORDER BY id", 9, prefetch=3):
                    SAY(plain(record))
    for text in ("SELECT nope FROM account", "SELECT id FROM account WHERE nope = 'ü'", "SELECT 'ü', nope FROM account", "SELEC 1", "SELECT 1/0",
                 "INSERT INTO account VALUES (1, 'x')", "INSERT INTO entry VALUES (999, 1)", "SELECT owner FROM account GROUP BY id, owner HAVING nope"):
        for _ in range(2):
            await tried(c.fetch(text))
            await tried(c.execute(text))
    await tried(c.fetch("SELECT id FROM account WHERE id = $1", 1))
    await tried(c.execute("SELECT 1; SELECT id FROM account WHERE id = 1; UPDATE account SET balance = 0 WHERE id = 9"))
    for text in ("SELECT a.balance, b.note FROM account a LEFT JOIN entry b ON b.account = a.id AND b.number = $2 WHERE a.id = $1",
                 "DELETE FROM journal WHERE id = $1 AND line <> $2::text"):
        st = await c.prepare(text)
        SAY([(each.name, each.type.name) for each in st.get_attributes()], [each.name for each in st.get_parameters()], st.get_statusmsg())
        for i in (1, 2, 3, 300):
            await tried(st.fetch(i, 2 if "note" in text else "q"))
            SAY(st.get_statusmsg())
    for _ in range(3):
        await tried(c.executemany("UPDATE account SET balance = $1 WHERE id = $2", [(i, i) for i in range(20)]))
        await tried(c.executemany("INSERT INTO account VALUES ($1, $2)", [(70, "a"), (71, "b"), (1, "c")]))
        await tried(c.fetch("SELECT id, owner FROM account WHERE id >= 70"))
    await tried(c.copy_records_to_table("entry", records=[(60, i, i, None) for i in range(10)]))
    out = io.BytesIO()
    await tried(c.copy_from_query("SELECT id, owner FROM account WHERE id < $1 ORDER BY id", 6, output=out, format="csv"))
    await tried(c.copy_from_table("entry", output=out, columns=["account", "number"], format="binary"))
    SAY(out.getvalue())
    await tried(c.copy_to_table("keyless", source=io.BytesIO(b"1,x\n2,y\n"), format="csv"))
    await tried(c.copy_to_table("account", source=io.BytesIO(b"1,x\n"), format="csv", columns=["id", "owner"]))
    st = await c.prepare("SELECT * FROM account WHERE id = $1")
    await tried(st.fetch(3))
    for text in ("ALTER TABLE account ADD COLUMN added int", "ALTER TABLE account ALTER COLUMN added TYPE text", "ALTER TABLE account DROP COLUMN added",
                 "CREATE TEMP TABLE account (id int, other text)", "DROP TABLE pg_temp.account", "SET search_path TO public", "RESET search_path", "DEALLOCATE ALL"):
        await tried(c.execute(text))
        for _ in range(3):
            await tried(c.fetch("SELECT * FROM account WHERE id = $1", 3))
            await tried(c.fetchval("SELECT owner FROM account WHERE id = $1", 3))
            await tried(st.fetch(3))
    heard = asyncio.Queue()
    await c.add_listener("asyncpg_channel", lambda _, pid, channel, payload: heard.put_nowait((channel, payload)))
    other = await asyncpg.connect()
    await other.execute("NOTIFY asyncpg_channel, 'hello'")
    SAY(await heard.get())
    try:
        await c.fetch("SELECT pg_sleep($1)", 100, timeout=0.5)
    except asyncio.TimeoutError:
        SAY("cancelled")
    for _ in range(3):
        await tried(c.fetchval("SELECT length(repeat('y', 2000000)) FROM account WHERE id = $1", 1))
        SAY(len((await c.fetchrow("SELECT repeat('y', 2000000) AS y, id FROM account WHERE id = $1", 1))["y"]))
        await tried(c.fetch("SELECT id, body FROM blob ORDER BY id"))
        await tried(c.fetch("SELECT opened, tags, extra, balance FROM account WHERE id = 3"))
    pool = await asyncpg.create_pool(min_size=2, max_size=3)

    async def one(i):
        async with pool.acquire() as c, c.transaction():
            return plain(await c.fetchrow("UPDATE account SET balance = $1 WHERE id = $1 RETURNING id, balance", i))

    for _ in range(3):
        SAY(await asyncio.gather(*(one(i) for i in range(40, 50))))
    await pool.close()
    await c.reset()
    await tried(c.execute("DISCARD ALL"))
    await c.reload_schema_state()
    for _ in range(3):
        await tried(c.fetchval("SELECT owner FROM account WHERE id = $1", 3))
    await other.close()
    await c.close()
    SAY("end")


asyncio.run(main())
