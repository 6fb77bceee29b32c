"""Metrics in Prometheus's text format, and those that every audit has: of an application through
the proxy, or of collectors."""

from collections.abc import Callable, Iterable, Iterator, Mapping, Sequence
from dataclasses import dataclass

from ...core._verdict_kinds import Kind
from ...core._version import VERSION
from ...core._visible import shown
from ._web import TEXT as PLAIN
from ._web import Answer

TEXT = "text/plain; version=0.0.4; charset=utf-8"
Labels = tuple[tuple[str, object], ...]
Sample = tuple[Labels, float]
Family = tuple[str, str, str, Sequence[Sample]]  # name, kind, help text, samples
KINDS = (Kind.SERIAL, Kind.PENDING, Kind.VIOLATED, Kind.SPENT)  # of rounds


@dataclass(frozen=True)
class Common:
    """The figures that every audit has, over all audits of its run. Times are in seconds."""

    labels: Labels  # which audit it is
    taken: int  # transactions
    waiting: int
    remaining: int
    rounds: Mapping[str, int]  # by verdict
    cuts: int
    since_round: float
    behind: float
    audits: int
    meetings: int
    clients: int
    is_violated: bool
    is_incomplete: bool
    restarts: int

    def families(self) -> Iterator[Family]:
        labels = (("version", VERSION), *self.labels)
        about = "The audit's name and the version of this program."
        yield "zanteyard_info", "gauge", about, [(labels, 1)]
        rounds = {str(kind): self.rounds.get(kind, 0) for kind in KINDS}
        yield by("rounds_total", "counter", "Rounds, by verdict.", "kind", rounds)
        for name, kind, about, value in (
            ("transactions_taken_total", "counter", "Transactions that the auditor has accepted.",
             self.taken),
            ("transactions_waiting", "gauge", "Transactions that wait for the auditor.",
             self.waiting),
            ("transactions_remaining", "gauge", "Transactions accepted and not yet forgotten.",
             self.remaining),
            ("cuts_total", "counter", "How often transactions were forgotten.", self.cuts),
            ("seconds_since_round", "gauge", "Seconds since the last round.", self.since_round),
            ("seconds_behind", "gauge", "How late the last round's verdict was, in seconds.",
             self.behind),
            ("audits_total", "counter", "Audits started.", self.audits),
            ("meetings_total", "counter", "Meetings called.", self.meetings),
            ("clients", "gauge", "Clients that are connected.", self.clients),
            ("violated", "gauge", "1 after a violation that isn't set aside.", self.is_violated),
            ("incomplete", "gauge", "1 if something wasn't audited.", self.is_incomplete),
            ("program_restarts_total", "counter", "Auditor programs that were replaced.",
             self.restarts),
        ):
            yield one(name, kind, about, value)


def one(name: str, kind: str, about: str, value: float) -> Family:
    """A family with one sample."""
    return f"zanteyard_{name}", kind, about, [((), value)]


def by(name: str, kind: str, about: str, label: str, counts: Mapping[str, float]) -> Family:
    """A family with a sample for each value of the label."""
    return f"zanteyard_{name}", kind, about, [(((label, it),), n) for it, n in counts.items()]


class Metrics:
    """Answers /metrics with what `tell` says."""

    def __init__(self, tell: Callable[[], Iterable[Family]]) -> None:
        self._tell = tell

    def __call__(self, path: str) -> Answer:
        if path != "/metrics":
            return Answer("only /metrics is here\n", PLAIN, 404)
        return Answer(text_of(self._tell()), TEXT)


def text_of(every: Iterable[Family]) -> str:
    lines: list[str] = []
    for name, kind, about, samples in every:
        lines += [f"# HELP {name} {about}", f"# TYPE {name} {kind}"]
        lines += [f"{name}{labels(labelled)} {number(value)}" for labelled, value in samples]
    return "\n".join(lines) + "\n"


def number(value: float) -> str:
    """With all digits: a rounded counter stands still and then jumps."""
    return str(int(value)) if float(value).is_integer() else repr(float(value))


def labels(pairs: Labels) -> str:
    if not pairs:
        return ""
    return "{" + ",".join(f'{label}="{escaped(str(value))}"' for label, value in pairs) + "}"


def escaped(text: str) -> str:
    """A label's value, with escapes for what can't be seen: people read metrics in a terminal."""
    return shown(text).replace("\\", "\\\\").replace('"', '\\"')
