"""Measures how late threads are that only sleep: what a busy machine adds to each wait."""
import threading
import time

BOUND = 0.25  # seconds that a client waits for the audit at most
SLACK = 1.5  # more seconds, for delays of a single thread, such as a page that isn't in memory
OTHERS = 1.0  # more seconds, if it also waits for other processes, each of which may be late


class Lateness:
    """Measures, in a thread of its own, from `with` to its end."""

    def __enter__(self):
        self.most, self.ended = 0.0, threading.Event()
        self.thread = threading.Thread(target=self.measure, daemon=True)
        self.thread.start()
        return self

    def measure(self):
        while not self.ended.is_set():
            began = time.monotonic()
            time.sleep(0.005)
            self.most = max(self.most, time.monotonic() - began - 0.005)

    def __exit__(self, *_):
        self.ended.set()
        self.thread.join()

    @property
    def allowed(self):
        """The allowed seconds: a wait for the audit has a few steps, each of which may be as
        late."""
        return BOUND + SLACK + 4 * self.most

    @property
    def allowed_beside_others(self):
        return self.allowed + OTHERS
