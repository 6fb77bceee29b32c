"""A small shop that has a bug: it reads how much of an item is left, and writes one less. At
PostgreSQL's default isolation level two customers can read the same number, and one of the two
sales is lost.

    examples/shop.py URL --create                   makes the table, with 1,000 of each item
    examples/shop.py URL [--level LEVEL] [--sales N] [--seconds S]

It knows nothing of Zanteyard: to audit it, only the address in the URL is another one. ./try.sh
shows that.
"""

import argparse
import signal
import sys
import threading
import time
from typing import Any

try:
    import psycopg2 as driver
    from psycopg2.errors import DeadlockDetected, SerializationFailure
    from psycopg2.extensions import parse_dsn
except ImportError:
    import psycopg as driver
    from psycopg.conninfo import conninfo_to_dict as parse_dsn
    from psycopg.errors import DeadlockDetected, SerializationFailure

CLIENTS, ITEMS, STOCK = 4, (1, 2), 1000
THINKING = 0.02  # seconds that a customer takes between looking and buying
LEVELS = {each.lower(): each for each in ("READ COMMITTED", "REPEATABLE READ", "SERIALIZABLE")}


class Shop:
    """The customers of one run, each a thread with a connection of its own."""

    def __init__(self, url: str, level: str, sales: int, seconds: float) -> None:
        self.url, self.level, self.sales = url, level, sales
        self.until = time.monotonic() + seconds
        self.sold = dict.fromkeys(ITEMS, 0)
        self.retries = 0
        self.lock = threading.Lock()
        self.is_closed = threading.Event()

    def connect(self) -> Any:
        connection = driver.connect(**parse_dsn(self.url), application_name="shop")
        level = f"TRANSACTION ISOLATION LEVEL {LEVELS[self.level]}"
        with connection.cursor() as cursor:
            cursor.execute(f"SET SESSION CHARACTERISTICS AS {level}")
        connection.commit()
        return connection

    def sell(self, connection: Any, item: int) -> None:
        with connection.cursor() as cursor:
            cursor.execute("SELECT qty FROM stock WHERE id = %s", (item,))
            (left,) = cursor.fetchone()
            time.sleep(THINKING)
            cursor.execute("UPDATE stock SET qty = %s WHERE id = %s", (left - 1, item))
        connection.commit()

    def serve(self, customer: int) -> None:
        connection = self.connect()
        item = ITEMS[customer % len(ITEMS)]
        while self.is_open():
            try:
                self.sell(connection, item)
                with self.lock:
                    self.sold[item] += 1
            except (SerializationFailure, DeadlockDetected):
                connection.rollback()
                with self.lock:
                    self.retries += 1
            time.sleep(THINKING)
        connection.close()

    def is_open(self) -> bool:
        with self.lock:
            is_sold = sum(self.sold.values()) >= self.sales
        return not (is_sold or self.is_closed.is_set() or time.monotonic() >= self.until)

    def run(self) -> int:
        """Sells, and returns how many sales were lost."""
        before = self.stock()
        threads = [threading.Thread(target=self.serve, args=(each,)) for each in range(CLIENTS)]
        for thread in threads:
            thread.start()
        for thread in threads:
            thread.join()
        return sum(self.sold.values()) - (before - self.stock())

    def stock(self) -> int:
        connection = self.connect()
        with connection.cursor() as cursor:
            cursor.execute("SELECT qty FROM stock")
            left: int = sum(qty for (qty,) in cursor.fetchall())
        connection.commit()
        connection.close()
        return left


def create(url: str) -> None:
    connection = driver.connect(**parse_dsn(url))
    with connection.cursor() as cursor:
        cursor.execute("CREATE TABLE stock (id int PRIMARY KEY, qty int NOT NULL)")
        for item in ITEMS:
            cursor.execute("INSERT INTO stock VALUES (%s, %s)", (item, STOCK))
    connection.commit()
    connection.close()


def main() -> int:
    parser = argparse.ArgumentParser(description="Sells things, and loses some of the sales.")
    parser.add_argument("url", metavar="URL")
    parser.add_argument("--create", action="store_true", help="make the table")
    parser.add_argument("--level", choices=tuple(LEVELS), default="read committed")
    parser.add_argument("--sales", type=int, default=sys.maxsize, help="stop after so many")
    parser.add_argument("--seconds", type=float, default=3600.0, help="stop after this time")
    asked = parser.parse_args()
    if asked.create:
        create(asked.url)
        return 0
    shop = Shop(asked.url, asked.level, asked.sales, asked.seconds)
    for number in (signal.SIGTERM, signal.SIGINT):
        signal.signal(number, lambda *_: shop.is_closed.set())
    lost = shop.run()
    sold, retries = sum(shop.sold.values()), f", {shop.retries} retries" if shop.retries else ""
    print(f"the shop: {sold} sales at {asked.level}{retries}; {lost} of them were lost")
    return 0


if __name__ == "__main__":
    sys.exit(main())
