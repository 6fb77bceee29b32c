"""Charts of a live run, round by round, as plain SVG: how many transactions remain, how far the
auditor is behind, and each round's verdict."""

from collections.abc import Callable, Sequence
from dataclasses import dataclass

from ..core._visible import html_text

WIDTH, HEIGHT, LEFT, BOTTOM = 860.0, 150.0, 66.0, 34.0


@dataclass(frozen=True)
class RoundSeen:
    """One round of a live audit."""

    seconds: float  # since the audit began
    kind: str  # the verdict
    remaining: int  # transactions after it
    behind: float  # seconds that the auditor was behind the clients
    taken: int = 0  # transactions taken in since the audit began
    waiting: tuple[str, ...] = ()  # reads that wait for a transaction, and for which


def draw_rounds(rounds: Sequence[RoundSeen]) -> str:
    """Two charts, one above the other; empty if there was no round."""
    if not rounds:
        return ""
    return "\n".join(
        [
            _chart(
                rounds, "transactions that remain", lambda seen: float(seen.remaining), "{:,.0f}"
            ),
            _chart(rounds, "seconds behind the clients", lambda seen: seen.behind, "{:.2f}"),
        ]
    )


def _chart(
    rounds: Sequence[RoundSeen], title: str, value: Callable[[RoundSeen], float], shown: str
) -> str:
    most = max(max(map(value, rounds)), 1e-9)
    last = max(max(seen.seconds for seen in rounds), 1e-9)
    points = [
        (
            LEFT + seen.seconds / last * (WIDTH - LEFT - 20),
            HEIGHT - BOTTOM - value(seen) / most * (HEIGHT - BOTTOM - 28),
        )
        for seen in rounds
    ]
    dots: list[str] = []
    for seen, (x, y) in zip(rounds, points):
        about = f"{seen.seconds:.1f} s: {seen.kind}, {shown.format(value(seen))} {title}"
        dots.append(
            f'<circle class="{html_text(seen.kind)}" cx="{x:.1f}" cy="{y:.1f}" r="3.5">'
            f"<title>{html_text(about)}</title></circle>"
        )
    line = " ".join(f"{x:.1f},{y:.1f}" for x, y in points)
    floor = HEIGHT - BOTTOM
    return "\n".join(
        [
            f'<svg class="chart" role="img" viewBox="0 0 {WIDTH:.0f} {HEIGHT:.0f}" '
            f'width="{WIDTH:.0f}" height="{HEIGHT:.0f}">',
            f"<title>{html_text(title)}, round by round</title>",
            f'<text class="label" x="{LEFT:.0f}" y="15">{html_text(title)}</text>',
            f'<line class="axis" x1="{LEFT:.0f}" x2="{WIDTH - 20:.0f}" y1="{floor}" y2="{floor}"/>',
            f'<text class="tick end" x="{LEFT - 8:.0f}" y="32">{shown.format(most)}</text>',
            f'<text class="tick end" x="{LEFT - 8:.0f}" y="{floor + 4}">0</text>',
            f'<text class="tick" x="{LEFT:.0f}" y="{floor + 18}">0 s</text>',
            f'<text class="tick end" x="{WIDTH - 20:.0f}" y="{floor + 18}">{last:.0f} s</text>',
            f'<polyline points="{line}"/>',
            *dots,
            "</svg>",
        ]
    )
