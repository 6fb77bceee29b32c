"""Transfers with a Python driver, for some seconds. Prints how many were committed.

    transfer.py DRIVER PORT CLIENTS SECONDS ROWS

psycopg2 and psycopg have a process per client, asyncpg a process per four clients.
"""

import asyncio
import multiprocessing
import random
import sys
import time
from typing import Any

READ = "SELECT abalance FROM pgbench_accounts WHERE aid = %s"
WRITE = "UPDATE pgbench_accounts SET abalance = %s WHERE aid = %s"
AGAIN = ("SerializationFailure", "DeadlockDetected", "SerializationError", "DeadlockDetectedError")
TOGETHER = 4


def one_by_one(driver: str, port: int, ready: Any, seconds: float, rows: int) -> int:
    dsn = f"host=127.0.0.1 port={port} user=postgres dbname=postgres sslmode=disable"
    if driver == "psycopg2":
        import psycopg2

        connection = psycopg2.connect(dsn)
        connection.set_session(isolation_level="SERIALIZABLE")
    else:
        import psycopg

        connection = psycopg.connect(dsn)
        connection.isolation_level = psycopg.IsolationLevel.SERIALIZABLE
    cursor = connection.cursor()
    committed = 0
    ready.wait()
    ends = time.monotonic() + seconds
    while time.monotonic() < ends:
        one, other = random.randint(1, rows), random.randint(1, rows)
        try:
            total = 0
            for key in (one, other):
                cursor.execute(READ, (key,))
                total += cursor.fetchone()[0]
            cursor.execute(WRITE, ((total + 1) % 1000, one))
            connection.commit()
            committed += 1
        except Exception as error:
            if type(error).__name__ not in AGAIN:
                raise
            connection.rollback()
    connection.close()
    return committed


async def several(port: int, clients: int, ready: Any, seconds: float, rows: int) -> int:
    import asyncpg

    read, write = READ.replace("%s", "$1"), WRITE.replace("%s", "$1", 1).replace("%s", "$2")
    address = {"host": "127.0.0.1", "port": port, "user": "postgres", "database": "postgres"}
    connections = [await asyncpg.connect(**address, ssl=False) for _ in range(clients)]
    ready.wait()
    ends = time.monotonic() + seconds

    async def client(connection: Any) -> int:
        committed = 0
        while time.monotonic() < ends:
            one, other = random.randint(1, rows), random.randint(1, rows)
            try:
                async with connection.transaction(isolation="serializable"):
                    total = await connection.fetchval(read, one)
                    total += await connection.fetchval(read, other)
                    await connection.execute(write, (total + 1) % 1000, one)
                committed += 1
            except Exception as error:
                if type(error).__name__ not in AGAIN:
                    raise
        await connection.close()
        return committed

    return sum(await asyncio.gather(*map(client, connections)))


def part(driver: str, port: int, clients: int, ready: Any, seconds: float, rows: int, told: Any) -> None:
    if driver == "asyncpg":
        told.put(asyncio.run(several(port, clients, ready, seconds, rows)))
    else:
        told.put(one_by_one(driver, port, ready, seconds, rows))


def main(driver: str, *numbers: str) -> None:
    port, clients, rows = int(numbers[0]), int(numbers[1]), int(numbers[3])
    sizes: list[int] = [1] * clients
    if driver == "asyncpg":
        sizes = [min(TOGETHER, clients - done) for done in range(0, clients, TOGETHER)]
    ready, told = multiprocessing.Barrier(len(sizes)), multiprocessing.Queue()
    its = [
        multiprocessing.Process(
            target=part, args=(driver, port, size, ready, float(numbers[2]), rows, told)
        )
        for size in sizes
    ]
    for each in its:
        each.start()
    total = sum(told.get(timeout=float(numbers[2]) + 60) for _ in its)
    for each in its:
        each.join()
    print(total)


if __name__ == "__main__":
    main(*sys.argv[1:])
