"""Clients that come and go leave nothing behind in the audit's process."""
import gc
import os
import time
import tracemalloc
import unittest

from zanteyard.core._outcome import Policy
from zanteyard.live._live_auditor import LiveAuditor
from zanteyard.program._auditor import PROGRAM, Auditor
from zanteyard.stores.memory import MemoryStore

SOON = 300.0  # seconds
CLIENTS, MOST = 1500, 150  # bytes that each client may leave


@unittest.skipUnless(os.path.isfile(PROGRAM), f"{PROGRAM} is not built")
class Churn(unittest.TestCase):
    def test_what_stays_of_a_client(self):
        """Everything is taken in and forgotten, then again; the growth in between is what clients
        leave behind. One client stays, so that there are meetings."""
        store = MemoryStore()
        with Auditor(8) as auditor:
            live = LiveAuditor(auditor, policy=Policy(SOON, begins_anew=False), every=200, seconds=0.2)
            self.stays = live.session(store.connect())
            self.come_and_go(live, store)
            tracemalloc.start()
            self.addCleanup(tracemalloc.stop)
            self.come_and_go(live, store)
            before = tracemalloc.get_traced_memory()[0]
            self.come_and_go(live, store)
            self.come_and_go(live, store)
            each = (tracemalloc.get_traced_memory()[0] - before) / (2 * CLIENTS)
            live.leave_session(self.stays)
            outcome = live.stop()
        self.assertEqual(outcome.kind, "serial", outcome)
        self.assertLess(each, MOST)

    def come_and_go(self, live, store):
        for at in range(CLIENTS):
            session = live.session(store.connect())
            session.run(lambda its: its.put(f"k{at % 50}", its.get(f"k{at % 50}")))
            live.leave_session(session)
        cuts, until = live.cuts, time.monotonic() + SOON
        while live.cuts < cuts + 2 and time.monotonic() < until:  # one of these cuts covers all of them
            self.stays.run(lambda its: its.put("x", its.get("x")))
            time.sleep(0.01)
        self.assertGreaterEqual(live.cuts, cuts + 2)
        with store.lock:
            for versions in store.versions.values():
                del versions[:-2]
        gc.collect()


if __name__ == "__main__":
    unittest.main()
