"""Violations of one shape, known ones, and what is told of a violation."""
import http.server
import json
import os
import sys
import tempfile
import threading
import unittest

from tests import test_watch_after as after
from tests import test_watch_run
from tests import watch_feed as feed
from zanteyard.cli._commands import parser
from zanteyard.core._records import AuditId
from zanteyard.promises._kinds import SERIALIZABLE
from zanteyard.watch.violations._conflicts import cycles_of
from zanteyard.watch.violations._described import Described, Statement
from zanteyard.watch.violations._groups import (
    MOST, Groups, KnownFileError, Ran, Shape, happened, known_in, lines_of_groups, shape_of,
)
from zanteyard.watch.violations._hooks import Hooks
from zanteyard.watch.violations._violations import Answered, Held, Row

AT = feed.AT
REPORT = ["report", 1, "violated", [9] * 6, []]


def shape(table="stock", line=3, lost=True):
    return Shape(lost, (table,), ((Ran(f"SELECT n FROM {table}", f"shop.py:{line}"),),))


class Shapes(unittest.TestCase):
    def of(self, transactions, statements, tables=("public.stock",)):
        """The shape of the only violation in these, each of which ran such statements."""
        kept = after.kept_of(transactions)
        (cycle,) = cycles_of(kept, SERIALIZABLE).cycles
        held = Held(kept, REPORT, cycle, {})
        keys = {key: Row(tables[at % len(tables)], str(key)) for at, key in enumerate((5, 6))}
        its = {one: Described(one, statements=statements(one)) for one in transactions}
        return shape_of(held, Answered(its, keys))

    LOST = {
        AuditId((0, 0)): [[[5, "init"]], [5]],
        AuditId((1, 0)): [[[5, "init"], [5, 0, 0]], [5]],
    }
    SKEW = {
        AuditId((0, 0)): [[[5, "init"], [6, "init"]], [5]],
        AuditId((1, 0)): [[[5, "init"], [6, "init"]], [6]],
    }

    @staticmethod
    def ran(one):
        """Values, comments and other tables play no part."""
        return (
            Statement("BEGIN"),
            Statement(f"SELECT n FROM stock /*file='a.py',line='3'*/ WHERE id = {one[0]}", place="a.py:3"),
            Statement(f"INSERT INTO log VALUES ({one[0]})"),
            Statement(f"UPDATE  stock\nSET n = {one[1]}"),
        )

    def test_a_lost_update(self):
        found = self.of(self.LOST, self.ran)
        self.assertEqual((found.is_lost_update, found.tables), (True, ("stock",)))
        wanted = ["SELECT n FROM stock WHERE id = ?  [a.py:3]", "UPDATE stock SET n = ?"]
        self.assertEqual([[*map(str, its)] for its in found.statements], [wanted])

    def test_which_differ(self):
        one = self.of(self.LOST, self.ran)
        self.assertEqual(one, self.of({**self.LOST, AuditId((2, 0)): [[], []]}, self.ran))
        others = [
            self.of(self.SKEW, self.ran),
            self.of(self.LOST, self.ran, ("public.staff",)),
            self.of(self.LOST, lambda one: (Statement(f"SELECT n FROM stock WHERE s = {one[0]} + n"),)),
            self.of(self.SKEW, self.ran, ("public.stock", "public.staff")),
        ]
        self.assertEqual(len({one, *others}), 5)

    def test_two_roles(self):
        """Whoever was first: of two transactions that ran different statements."""
        def ran(one):
            return (Statement("UPDATE stock SET a = 1" if one[0] else "UPDATE stock SET b = 1"),)

        def swapped(one):
            return ran((1 - one[0], 0))

        self.assertEqual(self.of(self.SKEW, ran), self.of(self.SKEW, swapped))
        self.assertEqual(len(self.of(self.SKEW, ran).statements), 2)

    def test_what_proves_the_cycle(self):
        """Also the table in which a transaction has seen what another one wrote."""
        fractured = {
            AuditId((0, 0)): [[[5, "init"], [6, "init"]], [5, 6]],
            AuditId((1, 0)): [[[5, "init"], [6, 0, 0]], []],
        }
        found = self.of(
            fractured, lambda one: (Statement(f"SELECT n FROM staff, {one}"),), ("public.stock", "public.staff")
        )
        self.assertEqual(found.tables, ("staff", "stock"))

    def test_other_levels(self):
        """They are explained, too, under one name."""
        groups = Groups()
        for at, levels in enumerate((("read committed",), ("serializable",), ("read committed",)), 1):
            its = Shape(True, ("stock",), (), levels)
            self.assertEqual(groups.enter(its, AT), at < 3)
            groups.explained(its, at, "lost update")
        self.assertEqual([(one.count, one.number) for one in groups.listed()], [(3, 2)])
        kept = after.kept_of(self.LOST)
        held = Held(kept, REPORT, cycles_of(kept, SERIALIZABLE).cycles[0], {})
        its = {one: Described(one, level="serializable") for one in self.LOST}
        self.assertEqual(shape_of(held, Answered(its, {})).levels, ("serializable",))

    def test_when_it_happened(self):
        kept = after.kept_of({**self.LOST, AuditId((2, 0)): [[[5, 1, 0]], []]})
        held = Held(kept, REPORT, cycles_of(kept, SERIALIZABLE).cycles[0], {})
        its = {AuditId((at, 0)): Described(AuditId((at, 0)), ended=AT + at) for at in range(3)}
        self.assertEqual(happened(held, Answered(its, {}), AT + 99), AT + 1)
        self.assertEqual(happened(held, Answered({}, {}), AT + 99), AT + 99)

    def test_nothing_is_known(self):
        kept = after.kept_of(self.LOST)
        held = Held(kept, REPORT, cycles_of(kept, SERIALIZABLE).cycles[0], {})
        self.assertEqual(shape_of(held, Answered({}, {})), Shape(True, (), ()))


class Grouped(unittest.TestCase):
    def test_counts(self):
        groups = Groups()
        self.assertTrue(groups.enter(shape(), AT))
        self.assertFalse(groups.enter(shape(), AT + 9))
        self.assertFalse(groups.enter(shape(), AT - 2))  # found later
        self.assertTrue(groups.enter(shape("staff", lost=False), AT + 1))
        groups.explained(shape(), 1, "lost update")
        groups.explained(shape("staff", lost=False), 3, "write skew")
        one, other = groups.listed()
        self.assertEqual((one.about, one.count, one.first, one.last), ("lost update of stock", 3, AT - 2, AT + 9))
        self.assertEqual((other.about, other.count, other.number), ("write skew of staff", 1, 3))

    def test_names(self):
        """They stay when lines are moved within a file, and not otherwise."""
        groups = Groups()
        for at, its in enumerate((shape(line=3), shape(line=4), shape("staff")), 1):
            groups.enter(its, AT)
            groups.explained(its, at, "lost update")
        found = groups.listed()
        self.assertEqual([(one.count, one.number) for one in found], [(2, 1), (1, 3)])
        self.assertRegex(found[0].name, r"^[0-9a-f]{8}$")

    def test_too_many(self):
        groups = Groups()
        for at in range(MOST + 3):
            groups.enter(shape(f"t{at}"), AT)
        groups.enter_unseen(4)
        self.assertEqual((len(groups.listed()), groups.more), (MOST, 7))
        *_, last = lines_of_groups(groups.listed(), groups.more)
        self.assertRegex(last, rf"^ +{MOST - 15 + 7} +of more shapes$")

    def test_known_ones(self):
        first = Groups()
        first.enter(shape(), AT)
        name = first.explained(shape(), 1, "lost update").name
        groups = Groups({name})
        for its, title in ((shape(line=30), "lost update"), (shape("staff"), "write skew")):
            groups.enter(its, AT)
            groups.explained(its, 1, title)
        self.assertEqual([one.is_known for one in groups.listed()], [True, False])
        lines = [*lines_of_groups(groups.listed(), 0)]
        self.assertEqual(lines[-1], "1 known violation was set aside (--ignore), of 1 shape")
        self.assertIn("write skew of staff", lines[1])
        self.assertNotIn("lost update", "".join(lines))

    def test_their_file(self):
        with tempfile.TemporaryDirectory() as folder:
            path = os.path.join(folder, "known")
            with open(path, "w", encoding="utf-8") as file:
                file.write("# ours\n\n3f2a91bc the stock, ticket 7\n 00000000\n")
            self.assertEqual(known_in(path), {"3f2a91bc", "00000000"})
            with open(path, "a", encoding="utf-8") as file:
                file.write("lost update of stock\n")
            with self.assertRaisesRegex(KnownFileError, "line 5: .* such as 3f2a91bc"):
                known_in(path)
            with self.assertRaisesRegex(KnownFileError, "can't read"):
                known_in(f"{path}.none")


class Posted(http.server.BaseHTTPRequestHandler):
    def do_POST(self):
        data = self.rfile.read(int(self.headers["Content-Length"]))
        self.server.got.append((self.headers["Content-Type"], json.loads(data)))
        self.send_response(204 if self.path == "/right" else 500)
        self.end_headers()

    def log_message(self, *_):
        pass


class Told(unittest.TestCase):
    def test_a_command(self):
        with tempfile.TemporaryDirectory() as folder:
            path = os.path.join(folder, "got")
            hooks = Hooks(f"cat > {path}; echo unseen")
            hooks.tell({"title": "lost update"})
            hooks.wait()
            with open(path, encoding="utf-8") as file:
                self.assertEqual(file.read(), '{"title":"lost update"}\n')

    def test_a_command_that_fails(self):
        with self.assertLogs("zanteyard", "ERROR") as logged:
            hooks = Hooks("exit 3")
            hooks.tell({})
            hooks.wait()
        self.assertIn("--on-violation ended with status 3", logged.output[0])

    def test_a_web_address(self):
        server = http.server.HTTPServer(("127.0.0.1", 0), Posted)
        server.got = []
        running = threading.Thread(target=server.serve_forever)
        running.start()
        self.addCleanup(running.join)
        self.addCleanup(server.server_close)
        self.addCleanup(server.shutdown)
        place = f"http://127.0.0.1:{server.server_port}"
        hooks = Hooks(webhook=f"{place}/right")
        hooks.tell({"title": "lost update"})
        hooks.wait()
        self.assertEqual(server.got, [("application/json", {"title": "lost update"})])
        with self.assertLogs("zanteyard", "ERROR") as logged:
            hooks = Hooks(webhook=f"{place}/secret")
            hooks.tell({})
            hooks.wait()
        self.assertIn("--webhook failed", logged.output[0])
        self.assertNotIn("secret", logged.output[0])

    def test_what_is_no_address(self):
        asked = parser().parse_args(["watch", "postgresql:///", "--webhook", "https://a.example/b"])
        self.assertEqual(asked.webhook, "https://a.example/b")
        with self.assertRaises(SystemExit):
            parser().parse_args(["watch", "postgresql:///", "--webhook", "a.example"])


class Runs(test_watch_run.Runs):
    """A run with violations, some of which are known."""

    PARTS = [feed.started(), feed.OPEN, *feed.LOST_UPDATE, *feed.ROUND, feed.coverage()]

    def name_of(self, told):
        return told[[at for at, line in enumerate(told) if "lost update of stock" in line][0]][-9:-1]

    def test_until_a_violation(self):
        """It stops by itself. The command has the same violation."""
        path = os.path.join(self.folder, "got")
        told, status = self.run_of(
            self.PARTS, is_done=lambda its: False, ends_at_violation=True, hooks=Hooks(f"cat > {path}")
        )
        self.assertEqual(status, 1)
        with open(path, encoding="utf-8") as file:
            found = json.load(file)
        self.assertEqual((found["event"], found["title"]), ("violation", "lost update"))
        self.assertEqual(found["group"], self.name_of(told))
        self.assertIn(f"others of this shape are counted as {self.name_of(told)}", told)

    def test_a_known_one(self):
        told, _ = self.run_of(self.PARTS, is_done=lambda its: its.violations and its.seen.reads)
        known = frozenset({self.name_of(told)})
        with self.assertNoLogs("zanteyard", "ERROR"):
            told, status = self.run_of(
                self.PARTS,
                is_done=lambda its: its.known_count and its.seen.reads,
                known=known,
                hooks=Hooks("exit 1"),
            )
        self.assertEqual(status, 0)
        self.assertEqual(told[0].split(":")[0], "serial")
        self.assertIn("  1 known violation was set aside (--ignore), of 1 shape", told)
        self.assertFalse(any(line.startswith("violated") for line in told))

    def test_one_that_is_not_known(self):
        with self.assertLogs("zanteyard", "ERROR") as logged:
            told, status = self.run_of(
                self.PARTS,
                is_done=lambda its: its.violations and its.seen.reads,
                known=frozenset({"fb2ff3cf"}),
            )
        self.assertEqual(status, 1)
        self.assertRegex(logged.output[0], f"violation 1 isn't known: {self.name_of(told)}$")

    def test_json(self):
        told, _ = self.run_of(
            self.PARTS, is_done=lambda its: its.violations and its.seen.reads, is_json=True
        )
        outcome = json.loads(told[-1])
        (group,) = outcome["groups"]
        self.assertEqual((group["title"], group["tables"], group["count"]), ("lost update", ["stock"], 1))
        self.assertEqual(group["statements"][0]["origin"], "shop/orders.py:41")
        self.assertEqual(group["name"], json.loads(told[0])["group"])
        self.assertEqual((outcome["known_violations"], outcome["ungrouped"]), (0, 0))


for _name in [name for name in dir(test_watch_run.Runs) if name.startswith("test_")]:
    if _name not in vars(Runs):
        setattr(Runs, _name, None)  # these run in their own module
if __name__ == "__main__":
    sys.exit(unittest.main())
