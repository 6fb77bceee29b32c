"""Comments that say where a statement came from, and how they are read."""
import inspect
import os
import sys
import unittest

from zanteyard import comments
from zanteyard.watch.violations import _origins as origins

try:
    import psycopg2
except ImportError:
    psycopg2 = None
try:
    import psycopg
except ImportError:
    psycopg = None
try:
    import sqlalchemy
except ImportError:
    sqlalchemy = None

HERE = os.path.relpath(os.path.abspath(__file__), os.getcwd())


def line():
    """The caller's line."""
    return inspect.currentframe().f_back.f_lineno


class Comments(unittest.TestCase):
    def test_the_form(self):
        for values, wanted in (
            ({}, ""),
            ({"line": 4, "file": "a/b.py"}, "/*file='a/b.py',line='4'*/"),
            ({"file": "a b'c*/.py"}, "/*file='a%20b%27c%2A/.py'*/"),
            ({"route": "/ü"}, "/*route='/%C3%BC'*/"),
        ):
            with self.subTest(values=values):
                self.assertEqual(comments.comment_of(values), wanted)

    def test_it_is_read_again(self):
        for values in ({"file": "a b'c*/.py", "line": "7"}, {"x": "a,b='c'"}, {"é": "\\ /*"}):
            with self.subTest(values=values):
                told = comments.comment_of(values)
                self.assertEqual(origins.tags_of(f"SELECT 1 {told}"), values)

    def test_where_it_stands(self):
        wanted = f"/*file='{HERE}',line='{line() + 1}'*/"
        found = [comments.commented(it) for it in ("SELECT 1", "SELECT 1 ; ", b"SELECT '\xff'")]
        self.assertEqual(
            found,
            [f"SELECT 1 {wanted}", f"SELECT 1 {wanted};", b"SELECT '\xff' " + wanted.encode()],
        )

    def test_what_is_left_as_it_is(self):
        for statement in ("SELECT 1 /* mine */", "SELECT 1 -- mine", " ", "", None, 5):
            with self.subTest(statement=statement):
                self.assertIs(comments.commented(statement), statement)

    def test_a_percent_sign_is_doubled_for_parameters(self):
        found = comments.commented("SELECT %s", True, file="a b.py", line=3)
        self.assertEqual(found, "SELECT %s /*file='a%%20b.py',line='3'*/")

    def test_a_file_without_a_name_isnt_told(self):
        its = {"commented": comments.commented}
        exec(compile("found = commented('SELECT 1')", "<typed>", "exec"), its)
        self.assertIn(HERE, its["found"])  # the caller of what was typed in


class Origins(unittest.TestCase):
    def test_what_is_read_of_a_comment(self):
        for comment, wanted in (
            ("/*file='a.py',line='4'*/", "a.py:4"),
            ("/*line='4',file='a%20b.py'*/", "a b.py:4"),
            ("/*code.filepath='a.js',code.lineno='9',db_driver='pg'*/", "a.js:9"),
            ("/*controller='orders',action='create'*/", "orders#create"),
            ("/*action='x',source_location='app/a.rb:3'*/", "app/a.rb:3"),
            ("/* a remark */", ""),
            ("/*file='a.py' and more*/", ""),
            ("/*unlike='this'*/", ""),
        ):
            with self.subTest(comment=comment):
                self.assertEqual(origins.origin_of(f"SELECT 1 {comment}"), wanted)

    def test_a_statement_is_shown_without_it(self):
        told = "UPDATE t SET a = 1 /*kept*/ WHERE b = 2 /*file='x.py',line='1'*/"
        self.assertEqual(
            origins.without_tags(told), ("UPDATE t SET a = 1 /*kept*/ WHERE b = 2", "x.py:1")
        )
        self.assertEqual(origins.without_tags("SELECT '/*'"), ("SELECT '/*'", ""))


class Recording:
    """In place of a driver's cursor."""

    def __init__(self):
        self.run = []

    def execute(self, query, vars=None):
        self.run.append((query, vars))

    def executemany(self, query, several):
        self.run.append((query, several))


class Cursors(unittest.TestCase):
    @unittest.skipUnless(psycopg2, "psycopg2 is not installed")
    def test_psycopg2(self):
        from psycopg2.sql import SQL, Identifier

        cursor = comments.psycopg2_cursor(Recording)()
        first = line() + 1
        cursor.execute("SELECT 1")
        cursor.execute("SELECT %s", (1,))
        cursor.executemany("INSERT INTO t VALUES (%s)", [(1,), (2,)])
        cursor.execute(SQL("SELECT {}").format(Identifier("a")), vars=(1,))
        told = [f" /*file='{HERE}',line='{first + at}'*/" for at in range(4)]
        self.assertEqual(
            cursor.run[:3],
            [
                ("SELECT 1" + told[0], None),
                ("SELECT %s" + told[1], (1,)),
                ("INSERT INTO t VALUES (%s)" + told[2], [(1,), (2,)]),
            ],
        )
        composed, values = cursor.run[3]
        self.assertEqual(composed.seq[-1].string, told[3])
        self.assertEqual(values, (1,))

    @unittest.skipUnless(psycopg, "psycopg 3 is not installed")
    def test_psycopg(self):
        from psycopg.sql import SQL

        cursor = comments.psycopg_cursor(Recording)()
        first = line() + 1
        cursor.execute("SELECT 1")
        cursor.execute(SQL("SELECT 2"))
        told = [f" /*file='{HERE}',line='{first + at}'*/" for at in range(2)]
        self.assertEqual(cursor.run[0], ("SELECT 1" + told[0], None))
        self.assertEqual(cursor.run[1][0].as_string(None), "SELECT 2" + told[1])

    @unittest.skipUnless(psycopg, "psycopg 3 is not installed")
    def test_both_kinds_of_cursors(self):
        for base in (psycopg.Cursor, psycopg.AsyncCursor):
            self.assertTrue(issubclass(comments.psycopg_cursor(base), base))

    @unittest.skipUnless(sqlalchemy, "SQLAlchemy is not installed")
    def test_sqlalchemy(self):
        engine = sqlalchemy.create_engine("sqlite://")
        comments.add_to(engine)
        seen = []
        sqlalchemy.event.listen(
            engine, "before_cursor_execute", lambda *its: seen.append(its[2]), named=False
        )
        with engine.connect() as connection:
            at = line() + 1
            found = connection.execute(sqlalchemy.text("SELECT :a"), {"a": 3}).scalar()
        self.assertEqual(found, 3)
        self.assertEqual(seen, [f"SELECT ? /*file='{HERE}',line='{at}'*/"])

    def test_django(self):
        run = []
        at = line() + 1
        comments.django(lambda *its: run.append(its), "SELECT 1", None, False, {})
        self.assertEqual(run, [(f"SELECT 1 /*file='{HERE}',line='{at}'*/", None, False, {})])


if __name__ == "__main__":
    sys.exit(unittest.main())
