"""Three applications in plain SQL. Each has a rule, asks by a condition whether it may go on, and
then writes. Two clients do that at the same time. Each would keep the rule alone; together they
break it, unless the isolation level is serializable.

    PYTHON examples/rules.py bookings|on_call|budget URL [LEVEL] [SECONDS]

URL is that of the server, or of `zanteyard watch` in front of it. LEVEL is "read committed",
"repeatable read" or "serializable". It prints how often the rule was kept and broken.
"""

import sys
import time
from collections.abc import Callable, Sequence
from dataclasses import dataclass
from typing import Any

import psycopg2


@dataclass(frozen=True)
class Application:
    """Its statements. The place is a room, a shift or a project: each round has a new one."""

    tables: str
    begins: str  # what there is at a place
    asks: tuple[str, str]  # by which condition each client asks
    may_go_on: Callable[[Sequence[Any]], bool]  # by the rows that it got
    writes: tuple[str, str]
    broken: str  # counts the places at which the rule is broken


APPLICATIONS = {
    # Bookings of a room don't overlap.
    "bookings": Application(
        "CREATE TABLE IF NOT EXISTS booking"
        " (room int, during tstzrange, who text, PRIMARY KEY (room, who))",
        "SELECT 1",
        (
            "SELECT who FROM booking WHERE room = %(place)s"
            " AND during && '[2026-12-01 10:00+00,2026-12-01 11:00+00)'",
            "SELECT who FROM booking WHERE room = %(place)s"
            " AND during && '[2026-12-01 10:30+00,2026-12-01 11:30+00)'",
        ),
        lambda rows: not rows,
        (
            "INSERT INTO booking VALUES"
            " (%(place)s, '[2026-12-01 10:00+00,2026-12-01 11:00+00)', 'Ada')",
            "INSERT INTO booking VALUES"
            " (%(place)s, '[2026-12-01 10:30+00,2026-12-01 11:30+00)', 'Bob')",
        ),
        "SELECT count(*) FROM booking one JOIN booking other USING (room)"
        " WHERE one.who < other.who AND one.during && other.during",
    ),
    # At least one doctor of a shift is on call.
    "on_call": Application(
        "CREATE TABLE IF NOT EXISTS doctor"
        " (shift int, name text, on_call boolean NOT NULL, PRIMARY KEY (shift, name))",
        "INSERT INTO doctor VALUES (%(place)s, 'Ada', true), (%(place)s, 'Bob', true)",
        ("SELECT name FROM doctor WHERE shift = %(place)s AND NOT on_call",) * 2,
        lambda rows: not rows,
        (
            "UPDATE doctor SET on_call = false WHERE shift = %(place)s AND name = 'Ada'",
            "UPDATE doctor SET on_call = false WHERE shift = %(place)s AND name = 'Bob'",
        ),
        "SELECT count(*) FROM (SELECT shift FROM doctor GROUP BY shift"
        " HAVING NOT bool_or(on_call)) AS uncovered",
    ),
    # The expenses of a project are 100 at most.
    "budget": Application(
        "CREATE TABLE IF NOT EXISTS expense"
        " (project int, item text, amount numeric NOT NULL, PRIMARY KEY (project, item))",
        "INSERT INTO expense VALUES (%(place)s, 'paper', 20)",
        ("SELECT sum(amount) FROM expense WHERE project = %(place)s",) * 2,
        lambda rows: rows[0][0] + 60 <= 100,
        (
            "INSERT INTO expense VALUES (%(place)s, 'ink', 60)",
            "INSERT INTO expense VALUES (%(place)s, 'stamps', 60)",
        ),
        "SELECT count(*) FROM (SELECT project FROM expense GROUP BY project"
        " HAVING sum(amount) > 100) AS overdrawn",
    ),
}


class Clients:
    """Two clients of an application, and their connections."""

    def __init__(self, its: Application, url: str, level: str) -> None:
        self.its = its
        self.beside = psycopg2.connect(url)
        self.beside.autocommit = True
        self.both = [psycopg2.connect(url) for _ in range(2)]
        for connection in self.both:
            connection.set_session(isolation_level=level.upper())
        self.run(self.beside, its.tables)

    @staticmethod
    def run(connection: Any, text: str, place: int = 0) -> Sequence[Any]:
        with connection.cursor() as cursor:
            cursor.execute(text, {"place": place})
            return cursor.fetchall() if cursor.description else []

    def at(self, place: int) -> None:
        """Both ask, then both write, and then both commit."""
        self.run(self.beside, self.its.begins, place)
        going = []
        for connection, asks, writes in zip(self.both, self.its.asks, self.its.writes):
            rows = self.run(connection, asks, place)
            if self.its.may_go_on(rows):
                going.append((connection, writes))
            else:
                connection.commit()
        for step in (lambda one, writes: self.run(one, writes, place), lambda one, _: one.commit()):
            for connection, writes in going:
                try:
                    step(connection, writes)
                except psycopg2.errors.SerializationFailure:
                    connection.rollback()
                except psycopg2.errors.InFailedSqlTransaction:
                    connection.rollback()

    def broken(self) -> int:
        """At how many places the rule is broken."""
        return int(self.run(self.beside, self.its.broken)[0][0])

    def close(self) -> None:
        for connection in (*self.both, self.beside):
            connection.close()


def main(name: str, url: str, level: str = "repeatable read", seconds: str = "10") -> int:
    clients = Clients(APPLICATIONS[name], url, level)
    first = broken = clients.broken()
    ends, place, count = time.monotonic() + float(seconds), int(time.time() * 20) % 2**31, 0
    while time.monotonic() < ends:
        clients.at(place)
        place, count = place + 1, count + 1
        time.sleep(0.05)
    broken = clients.broken() - first
    print(f"{name} at {level}: kept {count - broken} times, broken {broken} times")
    clients.close()
    return 0


if __name__ == "__main__":
    if not 3 <= len(sys.argv) <= 5 or sys.argv[1] not in APPLICATIONS:
        sys.exit(__doc__)
    sys.exit(main(*sys.argv[1:]))
