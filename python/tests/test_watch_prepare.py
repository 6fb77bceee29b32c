"""What `zanteyard prepare` finds out about a server and its tables."""
import argparse
import contextlib
import glob
import io
import json
import os
import re
import shlex
import subprocess
import sys
import unittest
from unittest import mock

from zanteyard.cli._main import main
from zanteyard.trial.postgres_server import BIN, PostgresServer, program
from zanteyard.watch.postgres import _facts as facts
from zanteyard.watch.postgres import _hosts as hosts
from zanteyard.watch.postgres._address import _LIMITED
from zanteyard.watch.postgres._database import Database, DatabaseError, without_password
from zanteyard.watch.postgres._facts import Server
from zanteyard.watch.postgres._patterns import table_patterns
from zanteyard.watch._prepare import host_name, is_ready, report
from zanteyard.watch.postgres._schema import Table, quoted, tables_of

try:
    import psycopg2
except ImportError:
    psycopg2 = None
TOP = os.path.normpath(os.path.join(os.path.dirname(os.path.abspath(__file__)), "../.."))
TABLES = '''
CREATE TABLE right_one (id int PRIMARY KEY);
CREATE TABLE two (a uuid, b text, PRIMARY KEY (a, b));
CREATE TABLE no_key (a int);
CREATE TABLE indexed (a int NOT NULL, b text NOT NULL, c int, UNIQUE (a, c));
CREATE UNIQUE INDEX "by ""a""" ON indexed (b, a); CREATE UNIQUE INDEX ON indexed (a) WHERE c > 0;
CREATE TABLE bound (a int NOT NULL, "B" int NOT NULL, UNIQUE (a, "B"));
CREATE TABLE backwards (a int NOT NULL); CREATE UNIQUE INDEX ON backwards (a DESC);
CREATE TABLE by_null (a int UNIQUE);
CREATE UNLOGGED TABLE unlogged (a int PRIMARY KEY);
CREATE TABLE deferred (a int PRIMARY KEY DEFERRABLE);
CREATE TABLE by_json (a int, b jsonb, PRIMARY KEY (a, b));
CREATE TABLE nothing (a int PRIMARY KEY); ALTER TABLE nothing REPLICA IDENTITY NOTHING;
CREATE TABLE by_other (a int PRIMARY KEY, b int NOT NULL UNIQUE);
ALTER TABLE by_other REPLICA IDENTITY USING INDEX by_other_b_key;
CREATE TABLE by_key (a int PRIMARY KEY); ALTER TABLE by_key REPLICA IDENTITY USING INDEX by_key_pkey;
CREATE TABLE "whole ""one""" (a int PRIMARY KEY); ALTER TABLE "whole ""one""" REPLICA IDENTITY FULL;
CREATE TYPE state AS ENUM ('on', 'off'); CREATE DOMAIN short AS varchar(9);
CREATE TABLE by_enum (a state, b short, c timestamptz, d numeric, PRIMARY KEY (a, b, c, d));
CREATE TABLE parts (a int PRIMARY KEY, b int) PARTITION BY RANGE (a);
CREATE TABLE parts_1 PARTITION OF parts FOR VALUES FROM (0) TO (10);
CREATE VIEW seen AS SELECT * FROM right_one;
CREATE TEMPORARY TABLE temporary (a int);
CREATE COLLATION loose (provider = icu, locale = 'und', deterministic = false);
CREATE TABLE by_loose (a text COLLATE loose PRIMARY KEY);
'''
WHOLE = 'public.' + quoted('whole "one"')
NO_ICU = "CREATE COLLATION loose"


class Hosts(unittest.TestCase):
    def test_whose_server_it_is(self):
        for name, settings, wanted in (
            ("db.example", [], hosts.OWN),
            ("db.example", ["plpgsql.check"], hosts.OWN),
            ("a.b.eu-west-1.rds.amazonaws.com", [], hosts.RDS),
            ("a.cluster-b.eu-west-1.rds.amazonaws.com", [], hosts.AURORA),
            ("10.0.0.1", ["rds.extensions"], hosts.RDS),
            ("10.0.0.1", ["rds.extensions", "aurora.x"], hosts.AURORA),
            ("10.0.0.1", ["cloudsql.logical_decoding"], hosts.CLOUD_SQL),
            ("10.0.0.1", ["alloydb.logical_decoding"], hosts.ALLOYDB),
            ("x.postgres.database.azure.com", ["azure.extensions"], hosts.AZURE),
            ("db.abc.supabase.co", [], hosts.SUPABASE),
            ("ep-x.eu-central-1.aws.NEON.tech", [], hosts.NEON),
            ("ec2-1-2-3-4.compute-1.amazonaws.com", [], hosts.HEROKU),
        ):
            with self.subTest(name=name, settings=settings):
                self.assertIs(hosts.host_of(name, settings), wanted)

    def test_each_host_has_a_remedy_for_all(self):
        whats = (hosts.WAL_LEVEL, hosts.SLOTS, hosts.SENDERS, hosts.REPLICATION, hosts.KEEP)
        for host in (hosts.OWN, hosts.RDS, hosts.NEON, hosts.HEROKU):
            for what in (*whats, hosts.WALINSPECT):
                self.assertTrue(host.remedy(what, "bob"))
                self.assertNotIn("{user}", host.remedy(what, "bob"))

    def test_where_the_server_is(self):
        for url, wanted in (
            ("postgresql://a@db.example:5433/x", "db.example"),
            ("postgresql://a@/x?host=/tmp/s", "/tmp/s"),
            ("host=x dbname=y", ""),
        ):
            self.assertEqual(host_name(url), wanted)

    def test_a_password_isnt_shown(self):
        for url, wanted in (
            ("postgresql://a:b@c:1/d?e=f", "postgresql://a@c:1/d?e=f"),
            ("postgresql://c/d", "postgresql://c/d"),
            ("host=a password=b", "the server given"),
        ):
            self.assertEqual(without_password(url), wanted)

    @unittest.skipIf(psycopg2 is None, "psycopg2 is not installed")
    def test_several_servers_are_refused(self):
        for url in ("postgresql://a,b/c", "host=a,b", "host=a hostaddr=127.0.0.1,127.0.0.2"):
            with self.assertRaisesRegex(DatabaseError, "names several"):
                Database(url)

    @unittest.skipIf(psycopg2 is None, "psycopg2 is not installed")
    def test_what_is_not_followed_is_refused_by_name(self):
        """Before anything connects: nothing listens there."""
        for word in (
            "channel_binding=require", "gssencmode=require", "replication=database",
            "target_session_attrs=standby", "sslcrl=x", "sslcrldir=x", "requirepeer=postgres",
            "sslpassword=secret",
        ):
            for url in (f"postgresql://a@127.0.0.1:1/x?{word}", f"host=127.0.0.1 port=1 {word}"):
                with self.assertRaisesRegex(DatabaseError, f"^{word.split('=')[0]}=") as caught:
                    Database(url)
                self.assertNotIn("secret", str(caught.exception))

    def test_the_proxy_refuses_the_same(self):
        """The words and values of the proxy's own table."""
        path = os.path.join(TOP, "proxy/src/zanteyard/address/address.go")
        if not os.path.isfile(path):
            self.skipTest("the proxy's sources aren't here")
        with open(path, encoding="utf-8") as file:
            source = file.read()
        limited = r'^\t"(\w+)": +\{"\w*", (?:among|none|amongKeys)\('
        in_go = set(re.findall(limited, source, re.MULTILINE))
        self.assertEqual(in_go - {"sslmode", "sslsni"}, set(_LIMITED))  # libpq refuses these
        for name, (values, words) in _LIMITED.items():
            line = next(it for it in source.split("\n") if it.startswith(f'\t"{name}":'))
            for value in values if "among(" in line else ():
                self.assertIn(f'"{value}"', line)
            self.assertIn(words, source)

    def test_names_as_sql_has_them(self):
        for name, wanted in (("a_1", "a_1"), ("A", '"A"'), ('a"b', '"a""b"'), ("1a", '"1a"')):
            self.assertEqual(quoted(name), wanted)


class Patterns(unittest.TestCase):
    def test_which_tables_they_mean(self):
        """The same rows as in the proxy's own test."""
        for text, has, has_not in (
            ("public.*, shop.orders", "public.t shop.orders", "shop.order shop.orders2 Public.t"),
            ("orders", "shop.orders public.orders", "public.order"),
            ("sh*p.o*r*s", "shop.orders shp.ors ship.oars shop.oorsrs", "shop.order shop.rs sho.ors"),
            ("*.a*a", "s.aa s.aba s.aaa", "s.a s.ab s.ba"),
            (" x.y.z ", "x.y.z", "x.y"),
        ):
            its = table_patterns(text)
            for name in has.split():
                self.assertTrue(its.have([tuple(name.split(".", 1))]), (text, name))
            for name in has_not.split():
                self.assertFalse(its.have([tuple(name.split(".", 1))]), (text, name))
        for wrong in (",", "a,,b", ".t", "s.", "a, ", ""):
            with self.assertRaises(argparse.ArgumentTypeError):
                table_patterns(wrong)


class Reports(unittest.TestCase):
    server = Server("15.1", 150001, "shop", "bob", hosts.OWN)

    def test_its_lines(self):
        found = [
            facts.Finding(True, True, "PostgreSQL 15.1"),
            facts.Finding(False, True, "wal_level is replica", "set it"),
            facts.Finding(False, False, "pg_walinspect isn't created", "create it"),
        ]
        tables = [Table("a", "table"), Table("b", "table", "no primary key", "add one")]
        self.assertFalse(is_ready(found))
        self.assertEqual(
            [*report(self.server, found, tables)],
            [
                "the server",
                "  ok      PostgreSQL 15.1",
                "  MISSING wal_level is replica",
                "            set it",
                "            " + hosts.DOCKER_NOTE,
                "  note    pg_walinspect isn't created",
                "            create it",
                "the least role for an audit",
                "  CREATE ROLE zanteyard LOGIN REPLICATION; -- then, in psql: \\password zanteyard",
                "  GRANT CONNECT ON DATABASE shop TO zanteyard; -- if PUBLIC may not connect",
                "  GRANT EXECUTE ON FUNCTION pg_get_wal_record_info(pg_lsn) TO zanteyard; -- if the "
                "extension pg_walinspect is there",
                "  ALTER ROLE zanteyard SET log_min_messages = error; -- as a superuser, so that rows "
                "of tables without a key are counted",
                "the tables: 1 of 2 tables can be audited",
                "  b: no primary key",
                "    add one",
                "  their reads and writes are left out and counted",
                "1 thing is missing: an audit can't begin",
            ],
        )
        self.assertEqual([*report(self.server, found[:1], [])][-1], "ready: an audit can begin")

    def test_a_plugin_that_may_not_be_used(self):
        """It is reported together with what prevents a slot, not only afterwards. A server before
        15.19 has no such list."""
        told = f"wal2json isn't in the server's {facts.TRUSTED}: otherwise test_decoding is used; "
        for names, wanted in (
            (None, None),
            ("pgoutput", "pgoutput, wal2json"),
            ("pgoutput, test_decoding", "pgoutput, test_decoding, wal2json"),
            ("", "wal2json"),
            ("my_wal2json", "my_wal2json, wal2json"),
            ('pgoutput, "wal2json"', None),
            ("wal2json,pgoutput", None),
        ):
            with self.subTest(names=names):
                database = mock.Mock()
                database.one.return_value = names
                found = facts._plugin_untried(database, self.server)
                self.assertEqual([one.is_needed for one in found], [] if wanted is None else [False])
                for one in found:
                    self.assertTrue(one.sentence.startswith(told), one)
                    self.assertIn(f"SET {facts.TRUSTED} = {wanted};", one.remedy)


def plugin_is_installed():
    folders = os.environ.get(BIN) or "/usr/lib/postgresql/*/bin"
    return bool(glob.glob(f"{folders}/../lib/wal2json.so"))


@unittest.skipUnless(psycopg2 and program("initdb"), "PostgreSQL or psycopg2 is not installed")
class OverAServer(unittest.TestCase):
    @classmethod
    def setUpClass(cls):
        cls.cluster = PostgresServer()
        cls.cluster.__enter__()
        cls.addClassCleanup(cls.cluster.__exit__)
        cls.url = f"postgresql://postgres@/postgres?host={cls.cluster.folder}"

    def prepare(self, *words, url=None):
        out = io.StringIO()
        with contextlib.redirect_stdout(out):
            status = main(["prepare", url or self.url, *words])
        return status, out.getvalue().splitlines()

    def test_1_what_is_missing(self):
        status, lines = self.prepare()
        self.assertEqual(status, 1)
        (line,) = self.prepare("--json")[1]
        its = json.loads(line)
        self.assertEqual((its["ready"], its["server"]["database"]), (False, "postgres"))
        missing = [each for each in its["findings"] if each["needed"] and not each["right"]]
        self.assertEqual(
            missing[0]["sentence"], "wal_level is replica, but must be logical"
        )
        self.assertIn("ALTER SYSTEM SET wal_level", missing[0]["remedy"])
        whole = "\n".join(lines)
        for wanted in (
            "MISSING wal_level is replica, but must be logical",
            "ok      the role postgres has the right to replicate",
            "note    max_slot_wal_keep_size has no limit",
            "1 thing is missing",
        ):
            self.assertIn(wanted, whole)
        self.assertEqual("wal2json isn't installed" in whole, not plugin_is_installed())

    def test_1_a_plugin_that_is_missing(self):
        """It is told before the restart that wal_level needs, if a superuser asks."""
        with mock.patch.object(facts, "PLUGIN", "no_such_plugin"):
            lines = self.prepare()[1]
            at = lines.index("  note    no_such_plugin isn't installed: otherwise test_decoding is "
                             f"used; {facts.BEHIND_SAVEPOINTS}")
            self.assertTrue(lines[at + 1].strip().startswith("install it on the server"))
            with Database(self.url) as database:
                database.run("CREATE ROLE carol LOGIN")
            url = self.url.replace("postgres@", "carol@")
            self.assertNotIn("no_such_plugin", "\n".join(self.prepare(url=url)[1]))

    def test_2_a_nothing_is_created(self):
        with Database(self.url) as database:
            database.run("ALTER SYSTEM SET wal_level = 'logical'")
        self.cluster.stop()
        self.cluster.start()
        with Database(self.url) as database:
            before = database.one("SELECT count(*) FROM pg_class")
        status, lines = self.prepare()
        self.assertEqual(status, 0, lines)
        self.assertEqual(lines[-1], "ready: an audit can begin")
        with Database(self.url) as database:
            self.assertEqual(database.one("SELECT count(*) FROM pg_class"), before)
            slots = database.one("SELECT count(*) FROM pg_replication_slots")
        self.assertEqual(slots, 0)  # the slots that were tried are gone

    def test_2_b_a_table_that_an_earlier_version_made(self):
        drop = "DROP TABLE public.zanteyard_fence;"
        self.assertNotIn(drop, "\n".join(self.prepare()[1]))
        with Database(self.url) as database:
            database.run("CREATE TABLE public.zanteyard_fence (id integer PRIMARY KEY, n bigint)")
        status, lines = self.prepare()
        self.assertEqual((status, lines[-1]), (0, "ready: an audit can begin"))
        at = [line.strip() for line in lines].index(drop)
        self.assertIn("nothing uses it any more", lines[at - 1])
        with Database(self.url) as database:
            database.run(drop)
        self.assertNotIn(drop, "\n".join(self.prepare()[1]))

    def test_2_c_an_option_of_an_earlier_version(self):
        errors = io.StringIO()
        with contextlib.redirect_stderr(errors), self.assertRaises(SystemExit) as ended:
            self.prepare("--create")
        self.assertEqual(ended.exception.code, 2)
        self.assertIn("an audit creates no table", errors.getvalue())

    def test_3_a_tables(self):
        with Database(self.url, options="-c search_path=public") as database:
            text = TABLES
            if not database.one("SELECT 1 FROM pg_collation WHERE collprovider = 'i' LIMIT 1"):
                text = TABLES[: TABLES.index(NO_ICU)]
            for statement in filter(str.strip, text.split(";")):
                database.run(statement)
        with Database(self.url) as database:
            found = {table.name: table for table in tables_of(database)}
        seen = {name for name, table in found.items() if table.is_seen}
        self.assertEqual(
            seen,
            {
                "public.right_one", "public.two", "public.by_key", WHOLE,
                "public.by_enum", "public.parts", "public.parts_1",
            },
        )
        for name, wanted in (
            ("no_key", "no primary key"),
            ("unlogged", "unlogged"),
            ("deferred", "deferrable"),
            ("by_json", "primary key column b has type jsonb"),
            ("nothing", "replica identity"),
            ("by_other", "replica identity"),
            ("seen", "a view"),
        ):
            with self.subTest(table=name):
                self.assertIn(wanted, found[f"public.{name}"].reason)
        if "public.by_loose" in found:
            self.assertIn("collation", found["public.by_loose"].reason)
        self.assertEqual(
            (found["public.parts_1"].kind, found["public.seen"].kind), ("partition", "view")
        )
        self.assertNotIn("public.temporary", found)
        for name, wanted in (
            ("no_key", "(..); -- the columns that identify a row"),
            ("by_null", "(..); -- the columns that identify a row"),
            ("indexed", 'USING INDEX "by ""a""";'),
            ("bound", '(a, "B");'),
            ("backwards", "(a);"),
        ):
            with self.subTest(table=name), Database(self.url) as database:
                remedy = found[f"public.{name}"].remedy
                self.assertEqual(remedy, f"ALTER TABLE public.{name} ADD PRIMARY KEY {wanted}")
                if not wanted.startswith("(..)"):  # the statement makes it seen
                    database.run(remedy)
                    now = {table.name: table for table in tables_of(database)}
                    self.assertTrue(now[f"public.{name}"].is_seen)
                    database.run(f"DROP TABLE public.{name}")

    def test_3_b_those_that_are_asked_for(self):
        """A partition matches by its topmost table's name as well as by its own."""
        for words, wanted in (
            ("public.p*,by_enum,shop.*", ["  no table matches shop.* of --tables"]),
            ("parts", []),
            ("*.no_key", ["  public.no_key: no primary key: its rows can't be identified"]),
        ):
            lines = self.prepare("--tables", words)[1]
            at = next(at for at, line in enumerate(lines) if line.startswith("the tables: "))
            with self.subTest(tables=words):
                self.assertEqual([it for it in wanted if it not in lines], [])
                count = {"parts": "2 of 2 tables", "*.no_key": "0 of 1 table"}.get(words, "3 of 3 tables")
                self.assertEqual(lines[at], f"the tables: {count} can be audited")

    def test_4_a_role_that_may_little(self):
        with Database(self.url) as database:
            database.run("CREATE ROLE bob LOGIN")
        url = self.url.replace("postgres@", "bob@")
        status, lines = self.prepare(url=url)
        self.assertEqual(status, 1)
        at = lines.index("  MISSING the role bob lacks the right to replicate")
        self.assertIn("ALTER ROLE bob REPLICATION", lines[at + 1])
        with Database(self.url) as database:
            database.run("ALTER ROLE bob REPLICATION")
        self.assertEqual(self.prepare(url=url)[0], 0)

    def test_4_b_the_least_role(self):
        """What is printed is enough, and a superuser learns that it needn't be one."""
        lines = self.prepare()[1]
        at = lines.index(
            "the role: the role postgres is a superuser, which an audit doesn't need; this one is enough"
        )
        made = lines[at + 1 : at + 5]
        with Database(self.url, options="-c search_path=public") as database:
            if database.one("SELECT 1 FROM pg_available_extensions WHERE name = 'pg_walinspect'"):
                database.run("CREATE EXTENSION pg_walinspect")
            else:
                del made[2]
        pasted = subprocess.run(
            [program("psql"), "-X", "-v", "ON_ERROR_STOP=1", self.url],
            input="\n".join(made), capture_output=True, text=True,
        )
        self.assertEqual((pasted.returncode, pasted.stderr), (0, ""), made)
        status, lines = self.prepare(url=self.url.replace("postgres@", "zanteyard@"))
        self.assertEqual((status, lines[-1]), (0, "ready: an audit can begin"), lines)
        self.assertIn("the least role for an audit", lines)
        self.assertFalse([it for it in lines if "pg_read_server_files" in it], lines)
        if len(made) > 3:
            self.assertIn("  ok      pg_walinspect exists, and zanteyard may call it", lines)
        self.leave()

    def leave(self):
        """WATCH.md's command removes that role, with all that it was given."""
        with open(os.path.join(TOP, "docs/WATCH.md"), encoding="utf-8") as file:
            text = file.read().split("\n## Leaving\n")[1].split("\n## ")[0]
        (command,) = re.findall("^psql (.*)$", text, re.MULTILINE)
        words = [self.url, *shlex.split(command)[1:]]
        psql = [program("psql"), "-X", "-v", "ON_ERROR_STOP=1", *words]
        ended = subprocess.run(psql, capture_output=True, text=True)
        self.assertEqual((ended.returncode, ended.stderr), (0, ""))
        with Database(self.url) as database:
            ask = "SELECT pg_catalog.count(*) FROM pg_catalog.pg_roles WHERE rolname = 'zanteyard'"
            self.assertEqual(database.one(ask), 0)

    def test_4_b_whose_extension_it_is(self):
        """The proxy calls a function of pg_walinspect only if nobody else can have made it, and
        `prepare` says so."""
        made = (
            "CREATE FUNCTION m.pg_get_wal_record_info(pg_lsn) RETURNS TABLE(description text) LANGUAGE plpgsql AS "
            "$$BEGIN ALTER ROLE maker SUPERUSER; RETURN QUERY SELECT ''::text; END$$"
        )
        hers = "the extension pg_walinspect or its function doesn't belong to a superuser"
        with Database(self.url, options="-c search_path=public") as database:
            if not database.one("SELECT 1 FROM pg_available_extensions WHERE name = 'pg_walinspect'"):
                self.skipTest("this PostgreSQL has no pg_walinspect")
            for statement in ("CREATE ROLE maker LOGIN", "CREATE SCHEMA m AUTHORIZATION maker"):
                database.run(statement)
            self.addCleanup(self.without_maker)
            for change, wanted in (
                ("SELECT 1", "  ok      pg_walinspect exists, and postgres may call it"),
                ("UPDATE pg_extension SET extowner = 'maker'::regrole WHERE extname = 'pg_walinspect'", hers),
                ("ALTER EXTENSION pg_walinspect SET SCHEMA m",
                 "the schema of the extension pg_walinspect doesn't belong to a superuser"),
                ("ALTER EXTENSION pg_walinspect SET SCHEMA m", "            ALTER EXTENSION pg_walinspect SET SCHEMA pg_catalog; -- as a superuser"),
                ("ALTER EXTENSION pg_walinspect SET SCHEMA pg_catalog", "  ok      pg_walinspect exists, and postgres may call it"),
                (f"SET ROLE maker; {made}; RESET ROLE; ALTER EXTENSION pg_walinspect DROP FUNCTION "
                 "pg_get_wal_record_info(pg_lsn); ALTER EXTENSION pg_walinspect ADD FUNCTION "
                 "m.pg_get_wal_record_info(pg_lsn)", hers),
            ):
                database.run("DROP EXTENSION IF EXISTS pg_walinspect")
                database.run("CREATE EXTENSION pg_walinspect")
                database.run(change)
                lines = self.prepare()[1]
                self.assertTrue([it for it in lines if wanted in it], (change, lines))

    def without_maker(self):
        with Database(self.url) as database:
            database.run("DROP EXTENSION pg_walinspect")
            database.run("DROP FUNCTION IF EXISTS public.pg_get_wal_record_info(pg_lsn)")
            database.run("DROP SCHEMA m CASCADE")
            database.run("DROP ROLE maker")

    def test_4_c_rules_that_ask_for_nothing(self):
        lines = self.prepare()[1]
        self.assertTrue([it for it in lines if "ask a client for no credential" in it], lines)

    def test_4_d_nobody_gains_a_right(self):
        """Whatever the database's owner has put in front of PostgreSQL's own names isn't called."""
        gains = (
            "LANGUAGE plpgsql AS $$BEGIN IF (SELECT rolsuper FROM pg_catalog.pg_roles WHERE rolname "
            "OPERATOR(pg_catalog.=) current_user) THEN ALTER ROLE intruder SUPERUSER; END IF; "
        )
        made = ["CREATE ROLE intruder LOGIN", "CREATE SCHEMA m AUTHORIZATION intruder", "SET ROLE intruder"]
        for at, (left, right) in enumerate(
            (left, right) for left in ("oid", "name", "text", '"char"') for right in ("oid", "name", "text", '"char"', "int")
        ):
            for to, symbol in enumerate(("=", "<>", "~", "!~")):
                made.append(f"CREATE FUNCTION m.f{at}_{to}({left}, {right}) RETURNS boolean {gains} RETURN true; END$$")
                made.append(f"CREATE OPERATOR m.{symbol} (LEFTARG = {left}, RIGHTARG = {right}, FUNCTION = m.f{at}_{to})")
        for call in ("current_setting(text)", "current_database()", "count(oid)", "unnest(int2vector)", "to_regclass(text)"):
            made.append(f"CREATE FUNCTION m.{call} RETURNS text {gains} RETURN 'x'; END$$")
        ask = "SELECT rolsuper FROM pg_catalog.pg_roles WHERE rolname OPERATOR(pg_catalog.=) 'intruder'"
        with Database(self.url, options="-c search_path=public") as database:
            for statement in made:
                database.run(statement)
            database.run("RESET ROLE")
            database.run("ALTER DATABASE postgres SET search_path = m, public, pg_catalog")
            self.addCleanup(self.forget)
        with Database(self.url, options="") as database:
            database.run("SELECT 1 FROM pg_roles WHERE rolname = rolname")
            self.assertTrue(database.one(ask), "the database isn't hostile")
            database.run("ALTER ROLE intruder NOSUPERUSER")
        self.prepare()
        with Database(self.url) as database:
            self.assertFalse(database.one(ask))

    def forget(self):
        with Database(self.url) as database:
            database.run("ALTER DATABASE postgres RESET search_path")
            database.run("DROP SCHEMA m CASCADE")

    def test_5_no_room_for_a_slot(self):
        name = "zanteyard_test"
        with Database(self.url) as database:
            most = database.one("SELECT current_setting('max_replication_slots')::int")
            for at in range(most):
                database.run("SELECT pg_create_physical_replication_slot(%s)", (f"{name}{at}",))
            try:
                status, lines = self.prepare()
            finally:
                for at in range(most):
                    database.run("SELECT pg_drop_replication_slot(%s)", (f"{name}{at}",))
        self.assertEqual(status, 1)
        self.assertIn(f"MISSING max_replication_slots is {most}", "\n".join(lines))


@unittest.skipUnless(program("initdb"), "PostgreSQL is not installed")
class OverEitherDriver(unittest.TestCase):
    def test_both_give_the_same(self):
        """Each is used if the other one isn't installed."""
        found = {}
        with PostgresServer() as cluster:
            url = f"postgresql://postgres@/postgres?host={cluster.folder}"
            for name, other in (("psycopg2", "psycopg"), ("psycopg", "psycopg2")):
                before = {it: sys.modules.pop(it, None) for it in (name, other)}
                sys.modules[other] = None  # an import of it fails
                try:
                    __import__(name)
                except ImportError:
                    continue
                else:
                    with Database(url) as database:
                        found[name] = [
                            database.run("SELECT %s::int, 'a%%b'", (5,)),
                            database.run("SELECT 'a%b'"),
                            database.run("SET lock_timeout = 5"),
                            type(database.one("SELECT 1::bigint")),
                        ]
                finally:
                    for it, module in before.items():
                        sys.modules.pop(it, None)
                        if module is not None:
                            sys.modules[it] = module
        if not found:
            self.skipTest("neither psycopg2 nor psycopg 3 is installed")
        for name, its in found.items():
            with self.subTest(driver=name):
                self.assertEqual(its, [[(5, "a%b")], [("a%b",)], [], int])


if __name__ == "__main__":
    os.environ.setdefault("PGCONNECT_TIMEOUT", "20")
    sys.exit(unittest.main())
