"""With `redacts` no value and no constant of a statement is reported, handed over or noted. Keys
and the form of statements are."""
import glob
import os
import tempfile
import unittest
from unittest import mock

from zanteyard.core._circumstances import values_of
from zanteyard.core._records import Logged, as_bytes, unpacked
from zanteyard.core._redacting import redacted, redacted_bytes, without_constants
from zanteyard.explain._audited import from_start
from zanteyard.explain._html import page_of
from zanteyard.explain._reasons import explain_history
from zanteyard.explain._report import story_of
from zanteyard.explain._violation_text import tell_violation
from zanteyard.live._live_auditor import LiveAuditor
from zanteyard.program._auditor import PROGRAM, Auditor
from zanteyard.remote._client import AuditClient
from zanteyard.remote._server import AuditServer
from zanteyard.stores._shown import name_of, standard, value_of
from zanteyard.stores.memory import MemoryStore
from zanteyard.stores.redis import shown

SECRET = "4929-1234"
STATEMENT = f"UPDATE cards SET number = '{SECRET}' WHERE id = $1 -- {SECRET}"


class Texts(unittest.TestCase):
    LOGGED = Logged(
        [("cards", "init")], ["cards"], statements=[(("cards",), STATEMENT)],
        values=[("read", "cards", repr(SECRET))], began=7.5, caller="shop.py:41",
    )

    def test_keys_and_forms_stay(self):
        its = redacted(self.LOGGED)
        self.assertEqual(its.statements, ((("cards",), "UPDATE cards SET number = ? WHERE id = $1"),))
        self.assertEqual(values_of(its), {})
        self.assertEqual(its._replace(statements=(), values=()),
                         self.LOGGED._replace(statements=(), values=()))
        self.assertEqual(unpacked(redacted_bytes(as_bytes(self.LOGGED))), its)

    def test_each_kind_of_constant(self):
        for text, wanted in (
            ("SELECT 'it''s', E'a\\'b', $$x$$, $t$ '$t$, 1e-5, 0x1f, .5, b'01'",
             "SELECT ?, ?, ?, ?, ?, ?, ?, ?"),
            ('SELECT "4929", t2.c3, $1 FROM x4929', 'SELECT "4929", t2.c3, $1 FROM x4929'),
            ("SELECT 'without an end", "SELECT ?"),
            ("SELECT 1 /* 4929 */ -- 4929", "SELECT ?"),
            ('SET a.b TO word, "word"', "SET a.b TO ?, ?"),
            ("BEGIN; SET LOCAL a.b = word; UPDATE t SET a = b", "BEGIN; SET LOCAL a.b = ?; UPDATE t SET a = b"),
            ('SET LOCAL TIME ZONE "word"', "SET LOCAL TIME ZONE ?"),
            ("ALTER ROLE r SET a.b TO word", "ALTER ROLE r SET a.b TO ?"),
            ("CREATE FUNCTION f() SET a.b TO word AS $$1$$", "CREATE FUNCTION f() SET a.b TO ? ? ?"),
            ("CREATE TABLE t (a int CHECK (a = b))", "CREATE TABLE t (a int CHECK (a = b))"),
        ):
            self.assertEqual(without_constants(text), wanted)

    def test_statements_of_other_stores(self):
        marks = ("'", '"', "\\", "\\'", "\\\\'", "\n", "--", "#", "`", "''", '\\"', "/*", "*/", "$$", "")
        escapes = {39: "\\'", 34: '\\"', 92: "\\\\", 10: "\\n"}
        for one in marks:
            for other in marks:
                value = f"{one}secret{other}secret{one}"
                escaped, line = value.translate(escapes), value.replace("\n", " ")
                comment = escaped.replace("*/", "")
                for text in (
                    f"INSERT INTO t VALUES ('k', '{escaped}', 'secret')",
                    f'SELECT `a "b` FROM t WHERE v = "{escaped}" AND w = "secret"',
                    f"SELECT 1 /* {comment} secret */, 'secret'",
                    f"SELECT 1 # {line}\n, 'secret'",
                ):
                    self.assertNotIn("secret", without_constants(standard(text)), text)
                text = f"SET {name_of(one)} {value_of(value)}"
                self.assertNotIn("secret", without_constants(text))
        text = "SELECT `a`, 'it\\'s', \"x''y\", 'C:\\\\' FROM t # b"
        self.assertEqual(standard(text), "SELECT \"a\", 'it''s', 'x''''y', 'C:\\' FROM t -- b")

    def test_commands_of_redis(self):
        command = ("SET", "zanteyard:card", 'zanteyard ["4929", "run", 1, 2]', "GET")
        text = "SET zanteyard:card 'zanteyard [\"4929\", \"run\", 1, 2]' GET"
        self.assertEqual(shown(command), text)
        self.assertEqual(without_constants(text), "SET zanteyard:card ? GET")
        self.assertEqual(shown(("MGET", "it's", 'a "b')), 'MGET "it\'s" "a ""b"')


@unittest.skipUnless(os.path.isfile(PROGRAM), f"{PROGRAM} is not built")
class Audits(unittest.TestCase):
    def setUp(self):
        its = tempfile.TemporaryDirectory()
        self.addCleanup(its.cleanup)
        self.folder = its.name

    def lose_an_update(self, audit):
        """Two clients of a store that loses one of their updates."""
        store = MemoryStore("lost-update")
        sessions = [audit.session(store.connect()) for _ in range(2)]
        sessions[0].run(lambda its: its.put("cards", SECRET))
        begun = [session.begin() for session in sessions]
        for transaction in begun:
            transaction.get("cards")
            transaction.put("cards", SECRET + "!")
            transaction.statements[("cards",)] = STATEMENT  # as a collector over SQL has them
        for transaction in begun:
            transaction.commit()

    def told(self, auditor, lines):
        """Everything that is printed, logged and written about a violation."""
        history, names = from_start(auditor)
        path = os.path.join(self.folder, "violation")
        tell_violation(history, path, names, lines.append)
        page = page_of(
            story_of(history, names, explain_history(history, names)), "a store", "an auditor"
        )
        for name in glob.glob(path + "*"):
            with open(name, encoding="utf-8") as file:
                lines.append(file.read())
        return "\n".join([*lines, page])

    def check(self, text, redacts):
        self.assertEqual(SECRET in text, not redacts, text)
        self.assertIn("cards", text)
        self.assertIn("UPDATE cards SET number = " + ("? WHERE" if redacts else "'4929"),
                      text.replace("&#x27;", "'"))

    def test_sessions_of_the_process(self):
        for redacts in (True, False):
            with self.subTest(redacts=redacts):
                lines = []
                with Auditor(8) as auditor:
                    live = LiveAuditor(auditor, tell=lines.append, redacts=redacts)
                    self.lose_an_update(live)
                    self.assertTrue(live.stop().is_violated)
                    self.check(self.told(auditor, lines), redacts)

    def test_a_process_that_doesnt_ask_for_it(self):
        """The auditor's process leaves it out when it arrives."""
        self.over_a_socket(True, False)

    def test_a_process_that_asks_for_it(self):
        """Nothing of it is sent, or in its notes."""
        self.over_a_socket(False, True)

    def over_a_socket(self, redacts, asks):
        sent, noted, lines = [], [], []
        with Auditor(8) as auditor:
            live = LiveAuditor(auditor, tell=lines.append, redacts=redacts)
            come = live.hand_in_packed

            def taken(*its):
                sent.append(its[-1])
                return come(*its)

            with mock.patch.object(live, "hand_in_packed", taken):
                with AuditServer(live, os.path.join(self.folder, "socket")) as server:
                    client = AuditClient(server.path, redacts=asks)
                    self.lose_an_update(client)
                    for name in glob.glob(server.notes + "/*"):
                        with open(name, "rb") as file:
                            noted.append(file.read())
                    client.leave()
            self.assertTrue(live.stop().is_violated)
            self.check(self.told(auditor, lines), True)
        for what in (b"".join(sent), b"".join(noted)):
            self.assertIn(b"cards", what)
            self.assertEqual(SECRET.encode() in what, not asks)


if __name__ == "__main__":
    unittest.main()
