"""Histories of more than 64 sessions, and of more than 2,048 transactions under snapshot isolation:
scripts of version 3.

They are run by the built program, and by the plain auditor if none is built. The plain auditor
judges many transactions without a search (`plain_auditor.py`)."""
import json
import os
import random
import subprocess
import unittest

from zanteyard import Auditor, LiveAuditor, Logged
from zanteyard.core._own_keys import FENCE
from zanteyard.core.errors import ImportRefusedError, RefusedError
from zanteyard.explain._audited import audited_apart
from zanteyard.explain._levels import Levels
from zanteyard.explain._shrinking import smaller
from zanteyard.imports._command import import_text
from zanteyard.promises._kinds import GENERALIZED, SERIALIZABLE, SESSIONLESS, SNAPSHOT

from .test_many_transactions import AUDITOR, ROUND, WithFolder, run

HEAD = "session,number,operation,key,value\n"


def rows(sessions, ends=""):
    """CSV of clients that take turns, each with two transactions that read and write one of a few
    keys. At the end, two clients may have read one version, and both have overwritten it."""
    dice, state, lines = random.Random(sessions), {}, []
    for number in range(2):
        for at in range(sessions):
            key, value = f"k{dice.randrange(40)}", number * sessions + at + 1
            lines.append(f"s{at},{number},read,{key},{state.get(key, '')}\n")
            lines.append(f"s{at},{number},write,{key},{value}\n")
            state[key] = value
    if ends == "lost update":
        for value, at in enumerate((2, sessions - 1), 1):
            lines += (f"s{at},2,read,lost,\n", f"s{at},2,write,lost,{value}\n")
    return HEAD + "".join(lines)


def busy(count, sessions=8):
    """Lines of as many transactions in version 3's form, without an opening: each reads and
    overwrites one key of its session, and reads the newest of the session before."""
    told = [[] for _ in range(sessions)]
    for at in range(count):
        number, session = divmod(at, sessions)
        before = [session, number - 1] if number else ["init"]
        other = session - 1 if session else sessions - 1
        newest = number if session else number - 1
        beside = [other, newest] if newest >= 0 else ["init"]
        reads = sorted([[session + 1, *before], [other + 1, *beside]])
        told[session].append([reads, [session + 1]])
    return told


def offers(told):
    for session, txns in enumerate(told):
        for first in range(0, len(txns), 128):
            yield ["offer", session, first, txns[first : first + 128]]


LOST = (([[[900, "init"]], [900]],), ([[[900, "init"]], [900]],))
# Two writers that don't know each other, and two readers that each saw one of them without the other.
FORK = (
    ([[], [901]],), ([[], [902]],),
    ([[[901, 0, None], [902, "init"]], []],), ([[[901, "init"], [902, 1, None]], []],),
)


def ended(told, ending):
    """The same with an ending: a transaction more in each of the first sessions. A source without a
    number is the session's own last one."""
    more = [[*txns] for txns in told]
    for session, (txn,) in enumerate(ending):
        reads = [[*read[:2], len(told[read[1]])] if read[-1] is None else read for read in txn[0]]
        more[session].append([reads, txn[1]])
    return more


class Sessions(WithFolder):
    """More than 64, and up to 256."""

    def written_rows(self, text):
        path = os.path.join(self.folder, "a.csv")
        with open(path, "w", encoding="utf-8") as file:
            file.write(text)
        return run("import", "csv", path, "-o", self.script)

    def opened(self):
        with open(self.script, encoding="utf-8") as file:
            return json.loads(next(file))

    def test_imported_and_checked(self):
        """Each client has a session of its own, and the lowest version that has room is used."""
        for sessions, form in ((64, []), (65, [3]), (200, [3]), (256, [3])):
            for ends, status in (("", 0), ("lost update", 1)):
                with self.subTest(sessions=sessions, ends=ends):
                    done = self.written_rows(rows(sessions, ends))
                    self.assertEqual((done[0], done[2]), (0, ""))
                    self.assertNotIn("put into the session", done[1])
                    count = 2 * sessions + (2 if ends else 0)
                    self.assertEqual(self.opened(), ["open", sessions, count, *form])
                    told = run("check", self.script, "--seconds", "60")
                    self.assertEqual((told[0], told[2]), (status, ""), told[1])
                    if ends:
                        self.assertIn("lost update", told[1])
                        self.assertIn(f"s2/2 and s{sessions - 1}/2 both read lost", told[1])

    def test_more_clients_than_that(self):
        """One that certainly comes after another one shares its session. Otherwise the file is
        refused, with how many there are."""
        text = rows(256) + "s256,0,read,k0,\ns256,0,write,k0,9999\n"
        with self.assertRaisesRegex(ImportRefusedError, "257 clients need 257 sessions.* most 256"):
            import_text("csv", HEAD + "".join(f"s{at},0,write,x,{at + 1}\n" for at in range(257)))
        first = "".join(f"s{at},0,write,x{at},1\n" for at in range(256))
        self.assertEqual(self.written_rows(HEAD + first + "s256,0,read,x7,1\n")[0], 0)
        self.assertEqual(self.opened(), ["open", 256, 257, 3])
        status, out, _ = run("check", self.script)
        self.assertEqual(status, 0, out)
        done = self.written_rows(text)
        self.assertEqual(done[0], 2)
        self.assertIn("257 clients need 257 sessions, of which there are at most 256", done[2])

    def test_a_script_of_each(self):
        """A read may name a session that isn't open, up to the version's last one."""
        for sessions, form, last, status in (
            (64, [2], 63, 3), (64, [2], 64, 2), (65, [3], 255, 3), (256, [3], 255, 3),
            (1, [3], 255, 3), (65, [2], 0, 2), (257, [3], 0, 2),
            (64, [2, "snapshot"], 64, 2), (256, [3, "snapshot"], 255, 3),
        ):
            with self.subTest(sessions=sessions, form=form, last=last):
                reader = ["offer", sessions - 1, 0, [[[[5, last, 9]], [6]]]]
                self.written(["open", sessions, 8, *form], reader, ROUND)
                self.assertEqual(run("check", self.script)[0], status)

    def test_a_read_of_a_session_that_only_this_version_has(self):
        """By each promise, in a script of few sessions: it is pending."""
        told = [[[[], [5]]], [[[[5, 0, 0], [6, 200, 3]], []]]]
        lines = [["open", 2, 8, 3], *offers(told), ROUND]
        self.written(*lines)
        for promise in ("serializable", "snapshot"):
            status, out, _ = run("check", self.script, "--promise", promise)
            self.assertEqual(status, 3)
            self.assertIn("200.3", out)
        found = Levels(AUDITOR, [json.dumps(each).encode() for each in lines]).found()
        asked = [each for each in found if not each.promise.is_timed]
        self.assertEqual({each.answer for each in asked}, {"so far"})
        # One that breaks the promise has the same read.
        told = [[[[], [5]], [[[5, "init"], [6, 200, 3]], []]], [[[], [7]]]]
        self.written(["open", 2, 8, 3], *offers(told), ROUND)
        for promise in ("serializable", "snapshot"):
            self.assertEqual(run("check", self.script, "--promise", promise)[0], 1)
        self.assertEqual(run("levels", self.script)[0], 0)

    def test_without_session_order(self):
        """A violation of it takes a search of its own: also of as many transactions as there are
        sessions."""
        for count in (64, 65, 256, 257):
            with self.subTest(count=count):
                # The second transaction of a session doesn't see the first one.
                stale = [[[], [1]], [[[1, "init"]], []]]
                told = [stale, *([[[], [at + 2]]] for at in range(count - 2))]
                lines = [["open", len(told), count, 3], *offers(told), ROUND]
                found = Levels(AUDITOR, [json.dumps(each).encode() for each in lines]).found()
                answers = {each.promise: (each.answer, each.why) for each in found}
                self.assertEqual(answers[SERIALIZABLE][0], "no")
                for promise in (SESSIONLESS, GENERALIZED):
                    answer, why = answers[promise]
                    self.assertEqual(answer, "yes" if count <= 256 else "unknown")
                    if count > 256:
                        self.assertIn("more than 256 transactions, and each takes a session", why)

    def test_a_violation_among_many_is_told_with_few(self):
        lost = Logged((("x", "init"),), ("x",))
        whole = [[Logged((), (f"k{at}",)), *([lost] if at in (7, 250) else [])] for at in range(256)]
        for promise in (SERIALIZABLE, SNAPSHOT):
            with self.subTest(promise=promise.name):
                its = audited_apart(whole, AUDITOR, promise)
                self.assertEqual(its.report.kind, "violated")
                self.assertEqual(json.loads(its.script.splitlines()[0])[1], 256)
                small = smaller(whole, AUDITOR, 60.0, (), promise)
                did = [at for at, txns in enumerate(small) if any(it.reads for it in txns)]
                self.assertEqual(did, [7, 250])

    def test_an_auditor_of_many(self):
        """The journal of one is continued with its bound."""
        path = os.path.join(self.folder, "audit.journal")
        for promise, form in (("serializable", [3]), ("snapshot", [3, "snapshot"])):
            with self.subTest(promise=promise):
                with Auditor(100, 300, AUDITOR, script=self.script, journal=path, promise=promise) as auditor:
                    auditor.take(99, 0, Logged((), ("x",)))
                    auditor.take(70, 0, Logged((("x", (99, 0)),), ()))
                    self.assertEqual(auditor.last_round().kind, "serial")
                    self.assertEqual(self.opened(), ["open", 100, 300, *form])
                with Auditor.resumed(path, AUDITOR) as auditor:
                    self.assertEqual(len(auditor.received), 100)
                    auditor.offer(0, 0, Logged((("x", "init"), ("x", (99, 0))), ()))
                    self.assertEqual(auditor.last_round().kind, "violated")
                os.remove(path)

    def test_a_live_audit_has_fewer(self):
        with Auditor(65, 300, AUDITOR) as auditor, self.assertRaisesRegex(ValueError, "at most 64"):
            LiveAuditor(auditor)

    def test_more_sessions_join(self):
        """Up to the bound of the version with which the audit was opened."""
        fence = Logged(((FENCE, "init"),), (FENCE,))
        joins = Logged(((FENCE, (0, 0)),), (FENCE,))
        for limit, most, refused in ((300, 64, "BadSession"), (4097, 256, "BadLine")):
            with self.subTest(limit=limit), Auditor(63, limit, AUDITOR) as auditor:
                auditor.offer(0, 0, fence)
                for session in range(63, most):
                    auditor.join(session, 0, joins)
                with self.assertRaisesRegex(RefusedError, refused):
                    auditor.join(most, 0, joins)
                self.assertEqual(auditor.sessions, most)

    def test_openings_of_each_version(self):
        ok, few = ["ok"], ["no", 2, "BadSession"]
        for word in ("open", "resume"):
            for sessions, form, reply in (
                (64, [], ok), (65, [], few), (64, [2], ok), (65, [2], few), (64, [2, "snapshot"], ok),
                (65, [2, "snapshot"], few), (0, [3], few), (65, [3], ok), (256, [3], ok),
                (257, [3], few), (256, [3, "snapshot"], ok), (257, [3, "snapshot"], few),
            ):
                with self.subTest(word=word, sessions=sessions, form=form):
                    text = json.dumps([word, sessions, 8, *form]) + "\n"
                    done = subprocess.run([AUDITOR], input=text, capture_output=True, text=True, check=True)
                    self.assertEqual(json.loads(done.stdout), reply)


class Snapshots(WithFolder):
    """Snapshot isolation of more than 2,048 transactions."""

    def kind(self, *words):
        status, out, err = run("check", self.script, "--seconds", "60", *words)
        self.assertEqual(err, "", out)
        return {0: "serial", 1: "violated", 3: "pending"}[status], out

    def test_kept(self):
        for count in (2048, 2049, 20000):
            told = busy(count)
            room = [3] if count > 4096 else []
            own = [2, "snapshot"] if count <= 2048 else [3, "snapshot"]
            for form, words in ((room, ("--promise", "snapshot")), (own, ())):
                with self.subTest(count=count, form=form):
                    self.written(["open", 8, count, *form], *offers(told), ROUND)
                    self.assertEqual(self.kind(*words)[0], "serial")

    def test_broken(self):
        """By two of five thousand."""
        for name, ending in (("lost update", LOST), ("long fork", FORK)):
            told = ended(busy(5000), ending)
            count = sum(map(len, told))
            for form, words in (([3], ("--promise", "snapshot")), ([3, "snapshot"], ())):
                with self.subTest(name=name, form=form):
                    self.written(["open", 8, count, *form], *offers(told), ROUND)
                    kind, out = self.kind(*words)
                    self.assertEqual(kind, "violated")
                    self.assertIn(name, out)
                    self.assertLess(out.count("\n"), 25)

    def test_skew_is_kept(self):
        """Which breaks serializability alone, among as many."""
        skew = ([[[900, "init"]], [901]],), ([[[901, "init"]], [900]],)
        told = ended(busy(5000), skew)
        self.written(["open", 8, 5002, 3], *offers(told), ROUND)
        self.assertEqual(self.kind("--promise", "snapshot")[0], "serial")
        self.assertEqual(self.kind()[0], "violated")

    def test_an_auditor_with_more_room(self):
        """Only if it is asked for; a journal of it is continued with the same room."""
        for limit, opened in (
            (None, [2, 2048, 2, "snapshot"]), (2048, [2, 2048, 2, "snapshot"]),
            (2049, [2, 2049, 3, "snapshot"]), (1 << 20, [2, 1 << 19, 3, "snapshot"]),
        ):
            with self.subTest(limit=limit):
                path = os.path.join(self.folder, f"{limit}.journal")
                with Auditor(
                    2, limit, AUDITOR, script=self.script, journal=path, promise="snapshot"
                ) as auditor:
                    auditor.take(0, 0, Logged((), ("x",)))
                    self.assertEqual(auditor.last_round().kind, "serial")
                with open(self.script, encoding="utf-8") as file:
                    self.assertEqual(json.loads(next(file))[1:], opened)
                with Auditor.resumed(path, AUDITOR) as auditor:
                    self.assertEqual((auditor.limit, auditor.received), (opened[1], [1, 0]))

    def test_saved_and_resumed(self):
        """What one run gives out is handed over whole to another of the same version."""
        told = busy(2100, 4)
        saves = [["save", "marks"], ["save", "last", 0]]
        saves += [["save", "remain", session, at] for session in range(4) for at in range(0, 640, 128)]
        lines = [["open", 4, 2100, 3, "snapshot"], *offers(told), *saves]
        parts = self.replies(lines)[-len(saves):]
        self.assertEqual(len(parts), len(saves))
        for opening, last in (
            (["resume", 4, 2100, 3, "snapshot"], ["ok"]),
            (["resume", 4, 2048, 2, "snapshot"], ["no", 14, "BadParts"]),
        ):
            handed, taken = [], {}
            for part in parts:  # each transaction once
                if part[0] == "offer":
                    part[3] = part[3][max(0, taken.get(part[1], 0) - part[2]):]
                    part[2] = max(part[2], taken.get(part[1], 0))
                    taken[part[1]] = part[2] + len(part[3])
                if part[0] != "offer" or part[3]:
                    handed.append(part)
            replies = self.replies([opening, *handed, ["resumed"]])
            self.assertEqual(replies[-1], last)

    def replies(self, lines):
        text = "".join(json.dumps(each) + "\n" for each in lines)
        done = subprocess.run([AUDITOR], input=text, capture_output=True, text=True, check=True)
        return [json.loads(each) for each in done.stdout.splitlines()]


if __name__ == "__main__":
    unittest.main()
