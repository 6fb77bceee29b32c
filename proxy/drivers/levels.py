"""Each way to set an isolation level that a Python driver has: `levels.py DRIVER`.

A line of the input is `CONNECTION NUMBER TEXT; TEXT ..`: run these statements there, then read the rows of that number
and of 100 more, print the number and the level that the server shows, and commit. The line `own` asks for the driver's
own ways, each with a number of its own. The answer ends with the line `done`.
"""
import asyncio
import os
import sys

USER = os.environ["PGUSER"]
OPTIONS = "-c default_transaction_isolation=serializable"
WHERE = {"host": os.environ["PGHOST"], "port": os.environ["PGPORT"], "database": os.environ["PGDATABASE"]}
READ, SHOW = "SELECT id FROM way WHERE id = ", "SHOW transaction_isolation"


class Psycopg:
    """psycopg2 and psycopg 3."""

    levels = ("READ COMMITTED", "REPEATABLE READ", "SERIALIZABLE")

    def __init__(self, module):
        self.module = module

    def connect(self, user=USER, **more):
        its = self.module.connect(user=user, host=WHERE["host"], port=WHERE["port"], dbname=WHERE["database"], **more)
        its.autocommit = True
        return its

    def run(self, connection, text, *values):
        cursor = connection.cursor()
        cursor.execute(text + ("%s" if values else ""), values or None)
        return cursor.fetchone() if cursor.description else None

    def commit(self, connection):
        self.run(connection, "COMMIT")

    def __call__(self, connection, number):
        self.run(connection, READ, number)
        self.run(connection, READ, number + 100)
        print(number, self.run(connection, SHOW)[0])

    def own(self):
        if not hasattr(self, "set"):
            self.set, self.auto = self.connect(), self.connect()
            self.set.autocommit = False
        for number, level in enumerate(self.levels, 50):
            if self.module.__name__ == "psycopg2":
                self.set.set_session(isolation_level=level)
                self.auto.set_session(isolation_level=level, autocommit=True)
            else:
                its = getattr(self.module.IsolationLevel, level.replace(" ", "_"))
                self.set.isolation_level = self.auto.isolation_level = its
            self(self.set, number)
            self.set.commit()
            if self.module.__name__ == "psycopg2":
                self.run(self.auto, "BEGIN")
                self(self.auto, number + 10)
                self.commit(self.auto)
            else:
                with self.auto.transaction():
                    self(self.auto, number + 10)


class Asyncpg:
    def __init__(self):
        self.loop = asyncio.new_event_loop()

    def wait(self, what):
        return self.loop.run_until_complete(what)

    def connect(self, user=USER, options=None):
        settings = {"default_transaction_isolation": "serializable"} if options else {}
        return self.wait(asyncpg.connect(user=user, ssl=False, server_settings=settings, **WHERE))

    def run(self, connection, text):
        self.wait(connection.execute(text))

    def commit(self, connection):
        self.run(connection, "COMMIT")

    def __call__(self, connection, number):
        for id in (number, number + 100):
            self.wait(connection.fetch(READ + "$1", id))
        print(number, self.wait(connection.fetchval(SHOW)))

    def own(self):
        if not hasattr(self, "plain"):
            self.plain = self.connect()
        for number, level in enumerate(("read_committed", "repeatable_read", "serializable"), 50):
            block = self.plain.transaction(isolation=level)
            self.wait(block.start())
            self(self.plain, number)
            self.wait(block.commit())


class Alchemy:
    """SQLAlchemy, over psycopg2."""

    def engine(self, user=USER, **more):
        url = sqlalchemy.engine.URL.create("postgresql+psycopg2", username=user, **WHERE)
        return sqlalchemy.create_engine(url, **more)

    def connect(self, user=USER, options=None):
        more = {"connect_args": {"options": options}} if options else {}
        return self.engine(user, isolation_level="AUTOCOMMIT", **more).connect()

    def run(self, connection, text):
        connection.exec_driver_sql(text)

    def commit(self, connection):
        self.run(connection, "COMMIT")

    def __call__(self, connection, number):
        for id in (number, number + 100):
            connection.execute(sqlalchemy.text(READ + ":id"), {"id": id}).fetchone()
        print(number, connection.exec_driver_sql(SHOW).scalar())

    def own(self):
        if not hasattr(self, "plain"):
            self.plain = self.engine()
            self.levels = ("READ COMMITTED", "REPEATABLE READ", "SERIALIZABLE")
            self.engines = [self.engine(isolation_level=level) for level in self.levels]
        for number, (level, engine) in enumerate(zip(self.levels, self.engines), 50):
            with self.plain.connect().execution_options(isolation_level=level) as its, its.begin():
                self(its, number)
            with engine.connect() as its, its.begin():
                self(its, number + 10)


class Django:
    def __init__(self):
        names = {"NAME": WHERE["database"], "HOST": WHERE["host"], "PORT": WHERE["port"]}
        its = {"ENGINE": "django.db.backends.postgresql", **names}
        options = {"default": {}, "options": {"options": OPTIONS}, "role": {}, "plain": {}}
        for level in (1, 2, 3):  # psycopg2's numbers
            options[f"at{level}"] = {"isolation_level": level}
        databases = {
            name: {**its, "USER": USER + "_role" * (name == "role"), "OPTIONS": more} for name, more in options.items()
        }
        django.conf.settings.configure(DATABASES=databases)

    def connect(self, user=USER, options=None):
        name = "options" if options else "plain" if user == USER else "role"
        return django.db.connections[name]

    def run(self, connection, text, *values):
        with connection.cursor() as cursor:
            cursor.execute(text + ("%s" if values else ""), values or None)
            return cursor.fetchone() if cursor.description else None

    def commit(self, connection):
        self.run(connection, "COMMIT")

    __call__ = Psycopg.__call__

    def own(self):
        for number, level in ((50, 1), (51, 2), (52, 3)):
            with django.db.transaction.atomic(f"at{level}"):
                self(django.db.connections[f"at{level}"], number)


name = sys.argv[1]
if name == "django":
    import django.conf
    import django.db
    driver = Django()
elif name == "sqlalchemy":
    import sqlalchemy
    driver = Alchemy()
elif name == "asyncpg":
    import asyncpg
    driver = Asyncpg()
else:
    driver = Psycopg(__import__(name))
connections = {}
for line in sys.stdin:
    if line.strip() == "own":
        driver.own()
    else:
        where, number, texts = line.split(" ", 2)
        if where not in connections:
            more = {"user": USER + "_role"} if where == "role" else {"options": OPTIONS} if where == "options" else {}
            connections[where] = driver.connect(**more)
        for text in texts.strip().split("; "):
            driver.run(connections[where], text)
        driver(connections[where], int(number))
        driver.commit(connections[where])
    print("done", flush=True)
