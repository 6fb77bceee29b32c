"""One client of bench/check/proxy_matrix.py: python3 clients.py DRIVER PORT.

Reads a command a line, and prints for each what it saw: {"ok": value} or {"error": class, "state":
SQLSTATE}.
"""

import asyncio
import io
import json
import os
import re
import select
import signal
import socket
import ssl
import struct
import subprocess
import sys
import threading
import time

ASK = "SELECT n FROM matrix WHERE id = 1"
WRITE = "UPDATE matrix SET n = n + 1 WHERE id = {}"
SLEEP = "SELECT pg_sleep(60)"
COPY = "COPY copied (id) FROM STDIN"
AFTER = 0.5  # seconds until a statement is cancelled
ROWS, PAUSE = 100, 0.1  # of a COPY, and seconds between them


class Rows(io.RawIOBase):
    """A COPY's rows, which come slowly."""

    left = ROWS

    def read(self, size=-1):
        self.left -= 1
        time.sleep(PAUSE)
        return "1\n" if self.left >= 0 else ""


class Usual:
    """A driver with libpq's ideas. `tls` asks for TLS."""

    def __init__(self, port):
        self.where = f"host=127.0.0.1 port={port} user=postgres dbname=postgres"
        self.port = port
        self.row = 2 + os.getpid() % 1000

    def with_tls(self, tls):
        return self.where + (" sslmode=require" if tls else " sslmode=disable")

    def ask(self):
        return self.value(ASK)

    def begin(self):
        return self.run("BEGIN")

    def write(self):
        return self.run(WRITE.format(self.row))

    def commit(self):
        return self.run("COMMIT")

    def sleep(self):
        return self.run(SLEEP)

    def connect_tls(self):
        return self.connect(tls=True)

    def cancelled(self):
        timer = threading.Timer(AFTER, self.cancel)
        timer.start()
        try:
            return self.sleep()
        finally:
            timer.join()

    @staticmethod
    def state(error):
        return getattr(error, "pgcode", None) or getattr(error, "sqlstate", None)


class Psycopg2(Usual):
    def connect(self, tls=False):
        import psycopg2

        self.connection = psycopg2.connect(self.with_tls(tls))
        self.connection.autocommit = True

    def close(self):
        self.connection.close()

    def run(self, text):
        with self.connection.cursor() as cursor:
            cursor.execute(text)
            return cursor.statusmessage

    def value(self, text):
        with self.connection.cursor() as cursor:
            cursor.execute(text)
            return cursor.fetchone()[0]

    def cancel(self):
        self.connection.cancel()

    def copy(self):
        with self.connection.cursor() as cursor:
            cursor.copy_expert(COPY, Rows(), 1)
            return cursor.rowcount


class Psycopg3(Psycopg2):
    def connect(self, tls=False):
        import psycopg

        self.connection = psycopg.connect(self.with_tls(tls), autocommit=True)

    def copy(self):
        rows = Rows()
        with self.connection.cursor() as cursor, cursor.copy(COPY) as copy:
            while row := rows.read():
                copy.write(row)


class SQLAlchemy(Psycopg2):
    def connect(self, tls=False):
        import sqlalchemy

        mode = "require" if tls else "disable"
        where = f"postgresql+psycopg2://postgres@127.0.0.1:{self.port}/postgres?sslmode={mode}"
        self.engine = sqlalchemy.create_engine(where, isolation_level="AUTOCOMMIT")
        self.session = self.engine.connect()

    def run(self, text):
        import sqlalchemy

        self.session.execute(sqlalchemy.text(text))

    def value(self, text):
        import sqlalchemy

        return self.session.execute(sqlalchemy.text(text)).scalar()

    def close(self):
        self.session.close()
        self.engine.dispose()

    def cancel(self):
        self.session.connection.cancel()

    def copy(self):
        with self.session.connection.cursor() as cursor:
            cursor.copy_expert(COPY, Rows(), 1)

    @staticmethod
    def state(error):
        return getattr(getattr(error, "orig", error), "pgcode", None)


class Django(Psycopg2):
    def __init__(self, port):
        super().__init__(port)
        import django
        from django.conf import settings

        its = {"ENGINE": "django.db.backends.postgresql", "NAME": "postgres", "HOST": "127.0.0.1",
               "PORT": port, "USER": "postgres", "OPTIONS": {}}
        settings.configure(DATABASES={"default": its}, USE_TZ=True)
        django.setup()

    def connect(self, tls=False):
        from django.db import connection

        connection.close()
        connection.settings_dict["OPTIONS"]["sslmode"] = "require" if tls else "disable"
        connection.ensure_connection()
        self.connection, self.its = connection, connection.connection  # another thread has another `connection`

    def cancel(self):
        self.its.cancel()

    def run(self, text):
        with self.connection.cursor() as cursor:
            cursor.execute(text)

    def copy(self):
        with self.connection.cursor() as cursor:
            cursor.copy_expert(COPY, Rows(), 1)

    @staticmethod
    def state(error):
        return getattr(error.__cause__ or error, "pgcode", None)


class Asyncpg(Usual):
    def __init__(self, port):
        super().__init__(port)
        self.loop = asyncio.new_event_loop()

    def wait(self, call):
        return self.loop.run_until_complete(call)

    def connect(self, tls=False):
        import asyncpg

        context = False
        if tls:
            context = ssl.create_default_context()
            context.check_hostname, context.verify_mode = False, ssl.CERT_NONE
        self.connection = self.wait(asyncpg.connect(
            host="127.0.0.1", port=self.port, user="postgres", database="postgres", ssl=context))

    def close(self):
        self.wait(self.connection.close(timeout=5))

    def run(self, text):
        return self.wait(self.connection.execute(text))

    def value(self, text):
        return self.wait(self.connection.fetchval(text))

    def cancelled(self):
        async def its():
            task = asyncio.ensure_future(self.connection.execute(SLEEP))
            await asyncio.sleep(AFTER)
            task.cancel()
            await task

        return self.wait(its())

    def copy(self):
        async def rows():
            for _ in range(ROWS):
                await asyncio.sleep(PAUSE)
                yield b"1\n"

        return self.wait(self.connection.copy_to_table("copied", source=rows(), columns=["id"]))


class Psql(Usual):
    """psql reads what a script would have: if the connection is lost, it ends."""

    class Lost(Exception):
        pass

    process = None

    def connect(self, tls=False):
        self.close()
        self.process = subprocess.Popen(
            ["psql", "-X", "-q", "-A", "-t", "-v", "VERBOSITY=verbose", self.with_tls(tls)],
            stdin=subprocess.PIPE, stdout=subprocess.PIPE, stderr=subprocess.STDOUT, text=True, bufsize=1,
        )
        return self.run("SELECT 1;")

    def close(self):
        if self.process:
            self.process.kill()
            self.process.wait()

    def say(self, text):
        try:
            self.process.stdin.write(text)
            self.process.stdin.flush()
        except OSError:
            pass

    def run(self, text):
        self.say(f"{text.rstrip(';')};\n\\echo ~end\n")
        return self.read()

    value = run

    def read(self):
        lines, state = [], None
        while (line := self.process.stdout.readline()) != "~end\n":
            if not line:
                break
            lines.append(line)
            if found := re.search(r"(?:ERROR|FATAL):  ([0-9A-Z]{5}):", line):
                state = found[1]
        if line != "~end\n":
            self.process.wait(10)
            error = self.Lost(f"psql ended with status {self.process.returncode}")
            error.pgcode = state
            raise error
        if state:
            error = Exception("ERROR")
            error.pgcode = state
            raise error
        return "".join(lines).strip()

    def cancel(self):
        self.process.send_signal(signal.SIGINT)

    def copy(self):
        self.say(COPY + ";\n")
        for _ in range(ROWS):
            self.say("1\n")
            time.sleep(PAUSE)
            if self.process.poll() is not None or select.select([self.process.stdout], [], [], 0)[0]:
                break
        self.say("\\.\n\\echo ~end\n")
        return self.read()


class Raw(Usual):
    """A pool in the manner of Npgsql: DISCARD ALL goes out before the first command of a checkout."""

    class ServerError(Exception):
        pass

    def connect(self, tls=False):
        self.socket = socket.create_connection(("127.0.0.1", self.port))
        if tls:
            self.socket.sendall(struct.pack(">ii", 8, 80877103))
            if self.socket.recv(1) != b"S":
                raise ConnectionError("no TLS")
            context = ssl.create_default_context()
            context.check_hostname, context.verify_mode = False, ssl.CERT_NONE
            self.socket = context.wrap_socket(self.socket)
        self.file = self.socket.makefile("rb")
        body = struct.pack(">i", 196608) + b"user\0postgres\0database\0postgres\0\0"
        self.socket.sendall(struct.pack(">i", len(body) + 4) + body)
        self.until_ready()
        self.out, self.block = True, False

    def close(self):
        self.file.close()
        self.socket.close()

    @staticmethod
    def message(kind, *parts):
        body = b"".join(parts)
        return kind + struct.pack(">i", len(body) + 4) + body

    def next(self):
        head = self.file.read(5)
        if len(head) < 5:
            raise ConnectionError("closed")
        body = self.file.read(struct.unpack(">i", head[1:])[0] - 4)
        return head[:1], body

    def until_ready(self):
        value, failed = None, None
        while True:
            try:
                kind, body = self.next()
            except OSError:
                if failed:
                    raise failed
                raise
            if kind == b"K":
                self.key = body
            elif kind == b"E":
                failed = self.ServerError()
                failed.pgcode = dict((part[:1], part[1:]) for part in body.split(b"\0"))[b"C"].decode()
            elif kind == b"D" and len(body) >= 6:
                value = body[6:].decode()
            elif kind == b"G":
                return "copying"
            elif kind == b"Z":
                if failed:
                    raise failed
                return value

    def run(self, text):
        sent = b""
        if self.out:
            sent += self.message(b"Q", b"DISCARD ALL\0")
        sent += self.message(b"P", b"\0", text.encode() + b"\0", b"\0\0") + self.message(b"B", b"\0\0", b"\0\0\0\0\0\0")
        sent += self.message(b"D", b"P\0") + self.message(b"E", b"\0", b"\0\0\0\0") + self.message(b"S")
        was, self.out = self.out, False
        self.socket.sendall(sent)
        if was:
            self.until_ready()
        return self.until_ready()

    def ask(self):
        self.out = not self.block  # it comes from the pool
        return self.run(ASK)

    def begin(self):
        self.out, self.block = True, True
        return self.run("BEGIN")

    def commit(self):
        try:
            return self.run("COMMIT")
        finally:
            self.block = False

    def cancel(self):
        with socket.create_connection(("127.0.0.1", self.port)) as its:
            its.sendall(struct.pack(">ii", 16, 80877102) + self.key)
            its.recv(1)

    def copy(self):
        self.socket.sendall(self.message(b"Q", COPY.encode() + b"\0"))
        self.until_ready()
        for _ in range(ROWS):
            time.sleep(PAUSE)
            if select.select([self.socket], [], [], 0)[0]:
                break
            self.socket.sendall(self.message(b"d", b"1\n"))
        else:
            self.socket.sendall(self.message(b"c"))
        return self.until_ready()


DRIVERS = {"psql": Psql, "psycopg2": Psycopg2, "psycopg 3": Psycopg3, "asyncpg": Asyncpg,
           "SQLAlchemy": SQLAlchemy, "Django": Django, "raw": Raw}


def main():
    client = DRIVERS[sys.argv[1]](int(sys.argv[2]))
    for line in sys.stdin:
        try:
            its = {"ok": getattr(client, line.strip())()}
        except (Exception, asyncio.CancelledError) as error:
            its = {"error": type(error).__name__, "state": client.state(error), "text": str(error)[:200]}
        print(json.dumps(its), flush=True)


if __name__ == "__main__":
    main()
