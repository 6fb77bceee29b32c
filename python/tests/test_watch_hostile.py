"""An application that is out to deceive whoever reads its audit, and one whose values nobody is to
see: what the page, the metrics, the journal and the files say of them, with a real server, the real
proxy and the real auditor."""
import contextlib
import glob
import html.parser
import io
import json
import logging
import os
import re
import shutil
import tempfile
import threading
import time
import unittest
import urllib.parse
import urllib.request
from unittest import mock

from zanteyard.program._binaries import PROGRAM
from zanteyard.trial.postgres_server import PostgresServer, program
from zanteyard.watch import _run
from zanteyard.watch.postgres._database import Database
from zanteyard.program._proxy_program import proxy_path
from zanteyard.watch._run import Plan, Run

from tests.proxy_pair import TOP

try:
    import psycopg2
except ImportError:
    psycopg2 = None
PLACES = os.path.join(TOP, "proxy/src/zanteyard/cmd/zanteyard-proxy/testdata/places.json")
LIMIT = 600.0  # seconds within which the result has to be found
# In places.json, in other cases, and as it is stored in bytes.
MARKED = re.compile("marker9|770011882299|6d41724b655239", re.IGNORECASE)
READING = r"(SELECT|WITH|INSERT|UPDATE|DELETE|EXPLAIN|/\*)"
# Markup that would be an element or an attribute of the page wherever it was pasted into it, and
# signs that a terminal obeys, that end a line or that turn it round. A name has 63 bytes at most.
MARKUP = "\"'></p><evil onevil=1>"
SIGNS = "\x1b[2J\r\n\u202e\u2028"
ODD = re.compile(r"[^\n -~\u00a0-\uffff]|[\u0080-\u009f\u200b-\u200f\u2028-\u202e\u2066-\u2069]")
# A line of Prometheus's text format.
LABEL = r'[a-z_]+="(?:[^"\\\n]|\\["\\n])*"'
METRIC = re.compile(rf"# (?:HELP|TYPE) [ -~]+|[a-z_]+(?:{{{LABEL}(?:,{LABEL})*}})? -?[0-9.e+-]+")


def quoted(name):
    return '"' + name.replace('"', '""') + '"'


class Elements(html.parser.HTMLParser):
    """All names of elements and of their attributes."""

    def __init__(self, text):
        super().__init__()
        self.names = set()
        self.feed(text)
        self.close()

    def handle_starttag(self, tag, attributes):
        self.names |= {tag, *(name for name, _ in attributes)}


@unittest.skipUnless(psycopg2 and program("initdb"), "PostgreSQL or psycopg2 is not installed")
@unittest.skipUnless(os.path.isfile(proxy_path()), "the proxy is not built")
@unittest.skipUnless(os.path.isfile(PROGRAM), f"{PROGRAM} is not built")
class Watched(unittest.TestCase):
    @classmethod
    def setUpClass(cls):
        cls.cluster = PostgresServer()
        cls.cluster.__enter__()
        cls.addClassCleanup(cls.cluster.__exit__)
        with Database(cls.url("postgres", "postgres")) as database:
            database.run("ALTER SYSTEM SET wal_level = 'logical'")
        cls.cluster.stop()
        cls.cluster.start()

    @classmethod
    def url(cls, user, database):
        user, database = (urllib.parse.quote(it, safe="") for it in (user, database))
        return f"postgresql://{user}@/{database}?host={cls.cluster.folder}"

    def setUp(self):
        self.folder = tempfile.mkdtemp()
        self.addCleanup(shutil.rmtree, self.folder, ignore_errors=True)
        self.told, self.servers, self.log = [], [], io.StringIO()
        handler = logging.StreamHandler(self.log)
        logger = logging.getLogger("zanteyard")
        self.addCleanup(logger.setLevel, logger.level)
        logger.setLevel(logging.DEBUG)
        logger.addHandler(handler)
        self.addCleanup(logger.removeHandler, handler)
        test = self

        class Noted(_run.WebServer):
            def __init__(self, *arguments):
                super().__init__(*arguments)
                test.servers.append(self)

        patched = mock.patch.object(_run, "WebServer", Noted)
        patched.start()
        self.addCleanup(patched.stop)

    def begin(self, database, title, *more, redacts=False):
        """Starts an audit of this database, by `zanteyard watch`'s own parts."""
        call = [proxy_path(), "--server", self.url("postgres", database), "--trust-clients"]
        call += ["--listen", f"{self.folder}/.s.PGSQL.6432", "--parameters=true", *more]
        self.journal, self.saved = (os.path.join(self.folder, it) for it in ("journal", "saved"))
        its = {"page": "127.0.0.1:0", "metrics": "127.0.0.1:0", "redacts": redacts}
        plan = Plan(call, PROGRAM, title, journal=self.journal, save=self.saved, **its)
        self.watch = Run(plan, self.told.append)
        running = threading.Thread(target=self.watch.run)
        running.start()
        self.addCleanup(running.join)
        self.addCleanup(self.watch.stop.set)
        self.running = running

    def connect(self, **its):
        """Connects through the proxy, as soon as it listens."""
        ends = time.monotonic() + LIMIT
        while True:
            try:
                connection = psycopg2.connect(host=self.folder, port=6432, **its)
                break
            except psycopg2.OperationalError:
                if time.monotonic() > ends or not self.running.is_alive():
                    raise
                time.sleep(0.05)
        self.addCleanup(connection.close)
        return connection

    def until_violated(self, lose_one):
        ends = time.monotonic() + LIMIT
        while not self.watch.board.status().violations:
            self.assertLess(time.monotonic(), ends, (self.told, self.log.getvalue()[-2000:]))
            lose_one()
            time.sleep(0.2)  # a slow auditor keeps up

    def shown(self):
        """All that the audit shows, by where."""
        page, metrics = (server.url for server in self.servers)
        number = self.watch.board.status().violations[0].number
        addresses = {"page": page, "changing": f"{page}now", "metrics": f"{metrics}metrics"}
        addresses.update(violation=f"{page}violation/{number}", status=f"{page}status.json")
        for form in ("txt", "jsonl"):
            addresses[form] = f"{page}violation/{number}.{form}"
        texts = {}
        for name, address in addresses.items():
            with urllib.request.urlopen(address, timeout=LIMIT) as answer:
                texts[name] = answer.read().decode()
        self.watch.stop.set()
        self.running.join()
        for path in (self.journal, *glob.glob(f"{self.saved}/*")):
            with open(path, "rb") as file:
                texts[os.path.basename(path)] = file.read().decode("utf-8", "replace")
        texts.update(log=self.log.getvalue(), printed="\n".join(self.told))
        return texts

    def test_names(self):
        """Names, keys and texts of statements stay texts, wherever they are shown."""
        its = {name: f"{name}{MARKUP}{SIGNS}" for name in ("db", "who", "sch", "tab", "col", "app")}
        key = f"key{MARKUP}{SIGNS}</script>"
        table = f"{quoted(its['sch'])}.{quoted(its['tab'])}"
        column = quoted(its["col"])
        with Database(self.url("postgres", "postgres")) as database:
            database.run(f"CREATE DATABASE {quoted(its['db'])}")
            database.run(f"CREATE ROLE {quoted(its['who'])} LOGIN")
        with Database(self.url("postgres", its["db"])) as database:
            database.run(f"CREATE SCHEMA {quoted(its['sch'])}")
            database.run(f"CREATE TABLE {table} ({column} pg_catalog.text PRIMARY KEY, v int)")
            database.run(f"INSERT INTO {table} VALUES (%s, 0)", (key,))
            who = quoted(its["who"])
            database.run(f"GRANT ALL ON ALL TABLES IN SCHEMA {quoted(its['sch'])} TO {who}")
            database.run(f"GRANT USAGE ON SCHEMA {quoted(its['sch'])} TO {who}")
        self.begin(its["db"], its["db"])
        application = f"app{MARKUP}\x1b[2J"  # the server takes no more of it
        whose = {"user": its["who"], "dbname": its["db"], "application_name": application}
        one, other = self.connect(**whose), self.connect(**whose)
        origin = urllib.parse.quote(f"file{MARKUP}{SIGNS}", safe="")
        comment = f"/*file='{origin}',line='1'*/".replace("%", "%%")

        def lose_one():
            for connection in (one, other):
                with connection.cursor() as cursor:
                    cursor.execute(f"SAVEPOINT {quoted(MARKUP + SIGNS)}")
                    cursor.execute(f"SELECT v FROM {table} WHERE {column} = %s {comment}", (key,))
                    cursor.execute(f"SELECT count(*) AS {quoted(MARKUP + SIGNS)} FROM {table}")
            for connection in (one, other):
                with connection.cursor() as cursor:
                    cursor.execute(f"UPDATE {table} SET v = 1 WHERE {column} = %s", (key,))
                connection.commit()

        self.until_violated(lose_one)
        texts = self.shown()
        del texts[os.path.basename(self.journal)]  # nobody reads it, and it isn't text
        for name, text in texts.items():
            with self.subTest(shown_in=name):
                self.assertIsNone(ODD.search(text), repr(text[:100]))
                if name in ("page", "changing", "violation") or name.endswith(".html"):
                    names = {it for it in Elements(text).names if "evil" in it}
                    self.assertEqual(names, set())
        for line in texts["metrics"].splitlines():
            self.assertTrue(METRIC.fullmatch(line), repr(line))
        self.assertIn("&lt;evil onevil=1&gt;", texts["page"])
        for word in ("who", "tab", "col", "app", "key", "file"):
            self.assertIn(f"{word}&quot;&#x27;&gt;&lt;/p&gt;&lt;evil", texts["violation"])
        for word in ("tab", "who", "key"):
            self.assertIn(f"{word}\"'></p><evil onevil=1>", texts["txt"])
        self.assertIn("db\\\"'></p><evil onevil=1>", texts["metrics"])
        self.assertIn("evil onevil=1", json.dumps(json.loads(texts["status"])))

    def shown_of_values(self, *more, redacts):
        """Where a marker is shown, with what is around it, after a run of all the statements."""
        with open(PLACES, encoding="utf-8") as file:
            places = json.load(file)
        self.assertGreater(len(places), 40)
        # Those after which the proxy has to look anew what names mean aren't run in between.
        others = [it for it in places if not re.match(READING, it) or "set_config" in it]
        with Database(self.url("postgres", "postgres")) as database:
            database.run("CREATE TABLE public.words (w text PRIMARY KEY, v numeric)")
            database.run("INSERT INTO public.words VALUES ('mArKeR9', 1), ('x', 2)")
            self.addCleanup(self.forget)
        self.begin("postgres", "shop", *more, redacts=redacts)
        its = {"user": "postgres", "dbname": "postgres"}
        one, other, third = (self.connect(**its) for _ in range(3))
        self.look(third, others)
        third.rollback()

        def lose_one():
            for connection in (one, other):
                self.look(connection, [it for it in places if it not in others])
            for connection in (one, other):
                with connection.cursor() as cursor:
                    cursor.execute("UPDATE words SET v = v + 1 WHERE w = 'mArKeR9'")
                connection.commit()

        self.until_violated(lose_one)
        self.look(third, others)
        third.commit()
        texts = self.shown()
        found = {
            name: [text[max(0, it.start() - 60) :][:120] for it in MARKED.finditer(text)]
            for name, text in texts.items()
        }
        return texts, {name: those for name, those in found.items() if those}

    def test_values_that_are_hidden(self):
        texts, found = self.shown_of_values("--redact", redacts=True)
        self.assertEqual(found, {})
        self.assertIn("SELECT v FROM words WHERE w = ?", texts["violation"])

    def test_values_that_are_shown(self):
        """Without --redact: so the test above could find them."""
        _, found = self.shown_of_values(redacts=False)
        self.assertLessEqual({"violation", "txt", "printed"}, set(found))

    def look(self, connection, places):
        """Reads the row, and runs all statements in one transaction; some fail."""
        with connection.cursor() as cursor:
            cursor.execute("SELECT v FROM words WHERE w = 'mArKeR9'")
            for text in places:
                cursor.execute("SAVEPOINT a")
                with contextlib.suppress(psycopg2.Error):
                    if text.startswith("COPY"):
                        cursor.copy_expert(text, io.StringIO())
                    else:
                        cursor.execute(text)
                # Released, so that what follows is written by the transaction itself.
                cursor.execute("ROLLBACK TO a; RELEASE a")

    def forget(self):
        with Database(self.url("postgres", "postgres")) as database:
            database.run("DROP TABLE public.words")


if __name__ == "__main__":
    unittest.main()
