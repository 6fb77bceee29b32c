"""The name of a violation never contradicts what the violation breaks and keeps: no name is told
next to a promise that it excludes and that is kept. Promises are checked by their definitions."""
import itertools
import json
import os
import random
import unittest
from concurrent.futures import ThreadPoolExecutor
from dataclasses import replace

from zanteyard import Logged
from zanteyard.core.errors import ZanteyardError
from zanteyard.explain._anomalies import Anomaly, name_cycle
from zanteyard.explain._arcs import Arc, ArcKind, Choice
from zanteyard.explain._audited import audited_apart
from zanteyard.explain._explanation import Explanation
from zanteyard.explain._reasons import explanation_of
from zanteyard.explain._report import story_lines, story_of
from zanteyard.explain._shrinking import smaller
from zanteyard.explain._standing import Standing, standing
from zanteyard.explain._words import name as plain_name
from zanteyard.promises._kinds import ALL, SERIALIZABLE, SNAPSHOT

from .built import TOP, path_of
from .plain_explanations import Check
from .plain_promises import DEFINITIONS

PROGRAM = path_of("cobra_audit")
WANTED = 500  # violations that are generated
FOLDERS = ("examples/promises", "crates/cobra_examples/data")  # of worked scripts
SMALL = 24  # transactions of a violation for which all promises are asked
# Recorded by bench/cost/field.py at PostgreSQL's repeatable read, and made small.
FIVE = """\
["open",4,8]
["offer",0,0,[[[],[43]]]]
["offer",1,0,[[[[8,2,0],[43,0,0]],[43]]]]
["offer",2,0,[[[],[8]]]]
["offer",3,0,[[[[8,2,0]],[8]],[[[43,0,0]],[]]]]
"""


def history_of(text):
    """The transactions that a script's lines offer; None if it does anything else with them."""
    lines = [json.loads(line) for line in text.splitlines() if line.startswith("[")]
    if not lines or lines[0][0] != "open" or {it[0] for it in lines} & {"truncate", "resume"}:
        return None
    if "strict" in lines[0]:  # times are asked about elsewhere
        return None
    history = [[] for _ in range(lines[0][1])]
    for kind, *rest in lines:
        if kind == "offer":
            session, first, txns = rest
            if first != len(history[session]):
                return None
            history[session] += [logged_of(*txn) for txn in txns]
    return history


def logged_of(reads, writes, outcome="committed"):
    reads = [(f"key {key}", tuple(it) if it != ["init"] else "init") for key, *it in reads]
    writes = [f"key {key}" for key in writes]
    if outcome == "aborted":
        return Logged((), (), outcome, tried_reads=reads, tried_writes=writes)
    return Logged(reads, writes)


def generated(seed):
    """A history in which transactions read somewhat old versions, each key's own order kept."""
    rng = random.Random(seed)
    lengths = [rng.randrange(1, 3) for _ in range(rng.randrange(2, 5))]
    keys = "xyz"[: rng.randrange(2, 4)]
    order = [session for session, length in enumerate(lengths) for _ in range(length)]
    rng.shuffle(order)
    history = [[] for _ in lengths]
    writers = {key: ["init"] for key in keys}
    is_last, overwrites = rng.choice([0.3, 0.6, 0.9]), rng.random() * 0.6
    for session in order:
        id = (session, len(history[session]))
        its = {
            key: versions[-1] if rng.random() < is_last else rng.choice(versions[-3:])
            for key, versions in writers.items()
        }
        reads = [(key, its[key]) for key in keys if rng.random() < 0.5]
        read = {key for key, _ in reads}
        writes = [key for key in keys if rng.random() < (overwrites if key in read else 0.4)]
        for key in writes:
            writers[key].append(id)
        history[session].append(Logged(reads, writes))
    return history


def kept_by(history):
    """The promises without time that the history keeps, by their definitions."""
    plain = [
        [
            ([(key, None if it == "init" else it) for key, it in logged.reads],
             {*logged.writes}, "committed")
            for logged in txns
        ]
        for txns in history
    ]
    return [each for each in ALL if not each.is_timed and DEFINITIONS[each.name](plain, {})]


def named(history, promise):
    """The story of a violated history before its promises are asked, and its explanation."""
    its = audited_apart(history, PROGRAM, promise)
    explanation = explanation_of(its, history, plain_name)
    return story_of(history, plain_name, explanation, its.script, (), promise), explanation


def called(story):
    return story.anomaly.name if story.anomaly else None


class Rule(unittest.TestCase):
    """No program is needed."""

    def test_a_name_that_contradicts_is_left_out(self):
        for called, excludes, stays in (("G-single", [SNAPSHOT], False), ("G2", [SERIALIZABLE], True)):
            with self.subTest(called=called):
                story = story_of([[Logged((), ())]], plain_name, Explanation("so"))
                its = replace(story, anomaly=Anomaly(called, "so", (), excludes))
                told = "\n".join(story_lines(its.with_standing(Standing((), [SNAPSHOT]))))
                self.assertIn("leaves snapshot isolation standing", told)
                self.assertEqual(called in told, stays)

    def test_a_cycle_is_named_by_the_weakest_that_it_follows_from(self):
        """An order of two writers counts only as far as what rules the other one out."""
        reader, writer, other, last = [(at, 0) for at in range(4)]
        choice = Choice(reader, "x", writer, other)
        read = Arc(writer, other, "", (), ArcKind.READ)
        for needs, wanted in (
            ([ArcKind.IN_SESSION, ArcKind.READ], "G-single"),
            ([ArcKind.WRITTEN, ArcKind.READ_BEFORE], "G2"),  # the reader's own anti-dependency follows
            ([ArcKind.READ_BEFORE, ArcKind.WRITTEN], "G2"),
            ([ArcKind.READ_BEFORE, ArcKind.IN_TIME], None),
        ):
            way = Arc(other, last, "", (), needs[0]), Arc(last, reader, "", (), needs[1])
            forced = Arc(other, writer, "", way, ArcKind.WRITTEN, "x", choice)
            with self.subTest(needs=needs):
                found = name_cycle([read, forced], {it: Logged((), ()) for it in (reader, writer, other, last)})
                self.assertEqual(found and found.name, wanted)


@unittest.skipUnless(PROGRAM, "cobra_audit is not built")
class Names(unittest.TestCase):
    def test_snapshot_isolation_allows_it(self):
        history = history_of(FIVE)
        story, explanation = named(history, SERIALIZABLE)
        self.assertEqual(called(story), "G2")
        self.assertEqual(
            story.anomaly.sentence, "each comes before the next: 1.0 → 3.0 → 3.1 → 1.0"
        )
        Check(history).explanation(explanation)
        told = "\n".join(story_lines(story.with_standing(standing(history, PROGRAM))))
        self.assertIn("and snapshot isolation standing", told)
        self.assertNotIn("G1c", told)

    def agrees(self, history, promise, kept):
        story, explanation = named(history, promise)
        wrong = story.anomaly and story.anomaly.contradicts(kept)
        self.assertFalse(wrong, f"{called(story)}: {history}, which keeps {kept}")
        Check(history, promise.is_split).explanation(explanation)
        return called(story)

    def test_of_generated_violations(self):
        """Each is named as it is, and some of them once made small, too."""
        names = set()

        def of_seed(seed):
            history = generated(seed)
            kept = kept_by(history)
            found = []
            for promise in (SERIALIZABLE, SNAPSHOT):
                if promise not in kept:
                    found.append(self.agrees(history, promise, kept))
                    if seed % 40 == 0:
                        small = smaller(history, PROGRAM, 60, (), promise)
                        found.append(self.agrees(small, promise, kept_by(small)))
            return found

        total, seeds = 0, iter(range(10 * WANTED))
        with ThreadPoolExecutor(2) as pool:
            while total < WANTED:
                for found in pool.map(of_seed, itertools.islice(seeds, 50)):
                    total += len(found)
                    names |= {*found}
        self.assertLessEqual({"G2", "G-single", "write skew", "lost update"}, names)

    def test_of_scripts(self):
        """Worked ones, for each promise that they break."""
        seen = 0
        for folder in FOLDERS:
            where = os.path.join(TOP, folder)
            for file in sorted(os.listdir(where)):
                if not file.endswith(".jsonl"):
                    continue
                with open(os.path.join(where, file), encoding="utf-8", errors="replace") as lines:
                    history = read_history(lines.read())
                if history is None or not 0 < sum(map(len, history)) <= SMALL:
                    continue
                for promise in (SERIALIZABLE, SNAPSHOT):
                    its = audited_kind(history, promise)
                    if its == "violated":
                        seen += 1
                        with self.subTest(file=file, promise=promise.name):
                            self.agrees(history, promise, standing(history, PROGRAM, promise).kept)
        self.assertGreaterEqual(seen, 15)


def read_history(text):
    try:
        return history_of(text)
    except (ValueError, TypeError, LookupError):  # a script of mistakes
        return None


def audited_kind(history, promise):
    try:
        return audited_apart(history, PROGRAM, promise).report.kind
    except ZanteyardError:
        return "refused"


if __name__ == "__main__":
    unittest.main()
