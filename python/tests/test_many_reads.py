"""The auditor takes 256 reads and 256 writes of a transaction. That many are audited. With one
more, the audit reports that it is incomplete, and why, whatever the store does."""
import os
import unittest

from zanteyard.core.errors import RefusedError
from zanteyard.core._records import MOST, Logged
from zanteyard.live._live_auditor import LiveAuditor
from zanteyard.program._auditor import PROGRAM, Auditor
from zanteyard.stores.memory import MemoryStore


@unittest.skipUnless(os.path.isfile(PROGRAM), f"{PROGRAM} is not built")
class ManyReads(unittest.TestCase):
    def test_offered_to_an_auditor(self):
        keys = [f"k{at}" for at in range(MOST + 1)]
        reads = [(key, "init") for key in keys]
        for did in (Logged(reads[:-1], []), Logged([], keys[:-1]), Logged(reads[:-1], keys[:-1])):
            with Auditor(1) as auditor:
                auditor.offer(0, 0, did)
                self.assertEqual(auditor.round().kind, "serial")
        for did in (Logged(reads, []), Logged([], keys)):
            with Auditor(1) as auditor:
                with self.assertRaisesRegex(RefusedError, "was refused: TooLong$") as refused:
                    auditor.offer(0, 0, did)
                self.assertLess(len(str(refused.exception)), 300)  # the line has thousands
                self.assertEqual(auditor.received, [0])

    def outcome(self, reads, writes, fault=None):
        """The outcome with clients that lose an update, if the store has that fault, and one that
        does this much."""
        with Auditor(4) as auditor:
            with LiveAuditor(auditor) as live:
                store = MemoryStore(fault)
                session, *two = [live.session(store.connect()) for _ in range(3)]
                session.run(lambda its: its.put("x", 0))
                begun = [client.begin() for client in two[: 2 if fault else 0]]
                for transaction in begun:
                    transaction.put("x", transaction.get("x") + 1)
                for transaction in begun:
                    transaction.commit()
                session.run(lambda its: [its.put(f"k{at}", 1) for at in range(writes)])
                session.run(lambda its: [its.get(f"k{at}") for at in range(reads)])
            return live.outcome

    def test_of_a_session(self):
        for reads, writes in ((MOST, 1), (1, MOST), (MOST, MOST)):
            with self.subTest(reads=reads, writes=writes):
                outcome = self.outcome(reads, writes)
                self.assertEqual((outcome.kind, outcome.audited), ("serial", 3))
                self.assertTrue(self.outcome(reads, writes, "lost-update").is_violated)
        for reads, writes in ((MOST + 1, 1), (1, MOST + 1)):
            with self.subTest(reads=reads, writes=writes):
                outcome = self.outcome(reads, writes)
                self.assertEqual(outcome.whole.kind, "incomplete")
                self.assertIn("was refused: TooLong", str(outcome))


if __name__ == "__main__":
    unittest.main()
