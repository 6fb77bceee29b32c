#!/usr/bin/env python3
"""A client in another process: it increments a counter in a store once, and reports the result.

    python3 -m tests.store_client ADDRESS KIND ARGUMENT ..

Arguments are JSON. The address is that of an `AuditClient`. It prints "done", or "refused: " and
the reason.
"""
import json
import sys

from zanteyard import AuditClient, StoreUnfitError


def store_of(kind, *arguments, **more):
    """A store over a connection of its own."""
    if kind == "postgres":
        from zanteyard.stores.postgres import PostgresStore as store
    elif kind == "mariadb":
        from zanteyard.stores.mariadb import MariaDBStore as store
    elif kind == "redis":
        from zanteyard.stores.redis import RedisStore as store
    else:
        from zanteyard.stores.sqlite import SQLiteStore as store
    return store(*arguments, **more)


def count(transaction):
    transaction.put("x", str(int(transaction.get("x") or 0) + 1))


def main(address, kind, *arguments):
    store = store_of(kind, *map(json.loads, arguments))
    with AuditClient(address) as client:
        session = client.session(store)
        try:
            session.run(count)
            print("done")
        except StoreUnfitError as error:
            print("refused:", error)


if __name__ == "__main__":
    main(*sys.argv[1:])
