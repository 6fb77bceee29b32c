"""A story's transactions on a time line, as SVG: a lane for each session, time from left to right,
and an arc from what comes before to what comes after. Aborted transactions, and reads from them,
are dashed. If begins and commits are separate, they are the left and right edges of a box. The
picture loads nothing from outside."""

from collections.abc import Mapping, Sequence
from dataclasses import dataclass
from math import hypot

from ..core._records import ABORTED, ShownId
from ..core._visible import html_text
from ._arcs import SESSION
from ._explanation import Link
from ._report import Step, Story

WIDTH, GAP, LANE_GAP = 316.0, 110.0, 76.0  # of a box, and between boxes, in the picture's units
LINE, PADDING, LEFT = 18.0, 8.0, 100.0
APART = 9.0  # half the distance between arcs that leave an edge and those that arrive there
MOST_LETTERS = 40  # of a line in a box: they fit even in DejaVu Sans, which is wide
ALONG = (0.5, 0.42, 0.58, 0.34, 0.66, 0.26, 0.74, 0.18, 0.82)  # fractions of a path
Point = tuple[float, float]
Curve = tuple[Point, ...]  # a Bezier curve: its ends, with one or two control points between them


@dataclass(frozen=True)
class Box:
    """The place of a transaction."""

    left: float
    top: float
    height: float

    @property
    def middle(self) -> Point:
        return self.left + WIDTH / 2, self.top + self.height / 2

    def holds(self, point: Point) -> bool:
        x, y = point
        return self.left < x < self.left + WIDTH and self.top < y < self.top + self.height

    def edge_of(self, event: str) -> Point:
        """The point of its begin or commit."""
        return self.left + (WIDTH if event == "commit" else 0), self.top + self.height / 2

    def edge_towards(self, point: Point) -> Point:
        """The point where the line from the middle to this point leaves the box."""
        (x, y), (to_x, to_y) = self.middle, point
        across, down = to_x - x, to_y - y
        if not across and not down:
            return x, y
        share = min(
            WIDTH / 2 / abs(across) if across else 9e9,
            self.height / 2 / abs(down) if down else 9e9,
        )
        return x + across * share, y + down * share


def columns_of(steps: Sequence[Step]) -> dict[ShownId, int]:
    """The column of each transaction: to the right of what precedes it in its session and of what
    it reads from, unless these form a cycle."""
    shown = [step.id for step in steps]
    before: dict[ShownId, list[ShownId]] = {id: [] for id in shown}
    for id, following in zip(shown, shown[1:]):
        if id[0] == following[0]:
            before[following].append(id)
    for step in steps:
        before[step.id] += [source for source in step.sources if source in before]
    columns: dict[ShownId, int] = {}
    left = list(shown)
    while left:
        ready = [id for id in left if all(other in columns for other in before[id])]
        for id in ready or [min(left, key=lambda other: (other[1], other[0]))]:
            own = [columns[other] for other in before[id] if other in columns]
            columns[id] = max(own, default=-1) + 1
            left.remove(id)
    return columns


def boxes_of(story: Story) -> dict[ShownId, Box]:
    """The place of each transaction."""
    columns = columns_of(story.steps)
    lanes = sorted({step.id[0] for step in story.steps})
    tops: dict[int, float] = {}
    top = LANE_GAP / 2
    for lane in lanes:
        tops[lane] = top
        top += max(_height(step) for step in story.steps if step.id[0] == lane) + LANE_GAP
    return {
        step.id: Box(LEFT + columns[step.id] * (WIDTH + GAP), tops[step.id[0]], _height(step))
        for step in story.steps
    }


def _height(step: Step) -> float:
    return 2 * PADDING + LINE * (1 + len(_told(step)))


def _told(step: Step) -> list[str]:
    """The lines of its box."""
    lines = [deed.text for deed in step.deeds]
    if step.outcome == ABORTED:
        return [*lines, ABORTED]
    return lines or ["did nothing that matters here"]


def draw_story(story: Story, links: Sequence[Link] = (), place: int = 0) -> str:
    """The picture with these links, as an `svg` element; empty if there is nothing to draw. Without
    links it shows who read from whom. `place` must differ for each picture of a page: definitions
    of one picture don't work for the others while it is folded away."""
    if not story.steps:
        return ""
    boxes = boxes_of(story)
    shown = links or _reads(story.steps)
    shown = [link for link in shown if link.start in boxes and link.end in boxes]
    curves = [*zip(shown, _side_by_side([_curve(link, boxes) for link in shown]))]
    marks = _places_of_numbers([curve for _, curve in curves], [*boxes.values()])
    arcs = [(link.is_of_circle, _arc(link, curve, place)) for link, curve in curves]
    points = [point for _, curve in curves for point in (curve[0], curve[-1])]
    for x, y in marks:
        points += [(x - 12, y - 12), (x + 12, y + 12)]
    for box in boxes.values():
        points += [(box.left, box.top), (box.left + WIDTH, box.top + box.height)]
    left, right = min(x for x, _ in points + [(4.0, 0.0)]) - 8, max(x for x, _ in points) + 24
    below = 26 if story.promise.is_split else 18
    columns = len({box.left for box in boxes.values()})
    top, bottom = min(y for _, y in points) - 18, max(y for _, y in points) + below
    about = "Transactions on a time line by session: " + "; ".join(
        f"{step.name} " + ", ".join(deed.text for deed in step.deeds) for step in story.steps
    )
    width, height = f"{right - left:.0f}", f"{bottom - top:.0f}"
    return "\n".join(
        [
            f'<svg class="timeline columns-{columns}" role="img" '
            f'viewBox="{left:.0f} {top:.0f} {width} {height}" width="{width}" height="{height}">',
            f"<title>{html_text(about)}</title>",
            _ends_of_arcs(place),
            *_lanes(story, boxes, right),
            *(text for is_red, text in arcs if not is_red),
            *(_box(step, boxes[step.id], story.promise.is_split) for step in story.steps),
            *(text for is_red, text in arcs if is_red),
            *(_number(link, at) for (link, _), at in zip(curves, marks) if link.number),
            "</svg>",
        ]
    )


def _reads(steps: Sequence[Step]) -> list[Link]:
    """Who read from whom: drawn if there isn't a single cycle."""
    names = {step.id: step.name for step in steps}
    aborted = {step.id for step in steps if step.outcome == ABORTED}

    def told(id: ShownId) -> str:
        return f"{names[id]}, which had aborted" if id in aborted else names[id]

    return [
        Link(source, step.id, f"{step.name} read from {told(source)}", False, source in aborted)
        for step in steps
        for source in dict.fromkeys(step.sources)
        if source in names
    ]


def _ends_of_arcs(place: int) -> str:
    heads = [("red", "circle-head"), ("grey", "other-head")]
    return (
        "<defs>"
        + "".join(
            f'<marker id="{colour}-head-{place}" viewBox="0 0 10 10" refX="9" refY="5" '
            f'markerWidth="7" markerHeight="7" orient="auto-start-reverse"><path class="{name}" '
            'd="M0 0L10 5L0 10z"/></marker>'
            for colour, name in heads
        )
        + "</defs>"
    )


def _lanes(story: Story, boxes: Mapping[ShownId, Box], right: float) -> list[str]:
    lanes = []
    for lane in sorted({step.id[0] for step in story.steps}):
        in_lane = [boxes[step.id] for step in story.steps if step.id[0] == lane]
        y = in_lane[0].top + PADDING + LINE / 2
        lanes.append(f'<line class="lane" x1="4" x2="{right - 8:.0f}" y1="{y:.1f}" y2="{y:.1f}"/>')
        lanes.append(f'<text class="session" x="4" y="{y - 7:.1f}">session {lane}</text>')
    return lanes


def _box(step: Step, box: Box, has_events: bool) -> str:
    deeds = _told(step)
    lines = "".join(
        f'<text class="deed" x="{box.left + PADDING:.1f}" '
        f'y="{box.top + PADDING + LINE * (at + 1.7):.1f}">{html_text(_short(deed))}</text>'
        for at, deed in enumerate(deeds)
    )
    run = [deed.statement for deed in step.deeds if deed.statement]
    more = f"{step.name}: {'; '.join(run or deeds)}"
    dashed = " aborted" if step.outcome == ABORTED else ""
    return (
        f'<g class="transaction{dashed}"><title>{html_text(more)}</title>'
        f'<rect x="{box.left:.1f}" y="{box.top:.1f}" width="{WIDTH:.0f}" '
        f'height="{box.height:.1f}" rx="6"/>'
        f'<text class="name" x="{box.left + PADDING:.1f}" '
        f'y="{box.top + PADDING + LINE * 0.75:.1f}">{html_text(step.name)}</text>{lines}'
        f"{_edges(box) if has_events else ''}</g>"
    )


def _edges(box: Box) -> str:
    """Its begin and its commit."""
    bottom = box.top + box.height
    parts = []
    for event, place in (("begin", ""), ("commit", " end")):
        x, _ = box.edge_of(event)
        parts.append(
            f'<line class="edge" x1="{x:.1f}" x2="{x:.1f}" y1="{box.top - 5:.1f}" '
            f'y2="{bottom + 5:.1f}"/><text class="tick{place}" x="{x:.1f}" '
            f'y="{bottom + 18:.1f}">{event}</text>'
        )
    return "".join(parts)


def _short(text: str) -> str:
    return text if len(text) <= MOST_LETTERS else text[: MOST_LETTERS - 1] + "…"


def _arc(link: Link, curve: Curve, place: int) -> str:
    """The arc without its number."""
    colour = "red" if link.is_of_circle else "grey"
    first, *turns, last = (f"{x:.1f} {y:.1f}" for x, y in curve)
    way = f"M{first}{'Q' if len(turns) == 1 else 'C'}{' '.join(turns)} {last}"
    return (
        f'<g class="arc {_kind(link)}"><title>{_title(link)}</title>'
        f'<path d="{way}" marker-end="url(#{colour}-head-{place})"/></g>'
    )


def _kind(link: Link) -> str:
    kind = "circle" if link.is_of_circle else "other"
    return f"{kind} aborted" if link.is_of_aborted else kind


def _title(link: Link) -> str:
    return (f"{link.number}. " if link.number else "") + html_text(link.why)


def _number(link: Link, at: Point) -> str:
    x, y = at
    return (
        f'<g class="mark {_kind(link)}"><title>{_title(link)}</title>'
        f'<circle cx="{x:.1f}" cy="{y:.1f}" r="11"/>'
        f'<text class="number" x="{x:.1f}" y="{y + 4.5:.1f}">{link.number}</text></g>'
    )


def _curve(link: Link, boxes: Mapping[ShownId, Box]) -> Curve:
    """The path of a link. One that leads to another column and another lane swings over; any other
    bends to its right, so that opposite ones stay apart."""
    start, end = boxes[link.start], boxes[link.end]
    (x, y), (to_x, to_y) = start.middle, end.middle
    if all(link.events):
        return _between_edges(link, start, end)
    if abs(to_x - x) > WIDTH and abs(to_y - y) > 1:
        is_back = to_x < x
        first, last = (start.left + WIDTH, y), (end.left, to_y)
        if is_back:  # apart from those that lead to the right
            first, last = (start.left, y + APART), (end.left + WIDTH, to_y - APART)
        swing = max(70.0, abs(last[0] - first[0]) * 0.5) * (-1 if is_back else 1)
        return first, (first[0] + swing, first[1]), (last[0] - swing, last[1]), last
    bent = _bent(start.middle, end.middle, link.why == SESSION)
    return start.edge_towards(bent), bent, end.edge_towards(bent)


def _between_edges(link: Link, start: Box, end: Box) -> Curve:
    """The path from one begin or commit to another. It leaves and enters boxes at the side of that
    edge, and enters above where others leave."""
    first, last = start.edge_of(link.events[0]), end.edge_of(link.events[1])
    if link.start == link.end:  # above the box
        (x, _), (to_x, _), top = first, last, start.top - 5
        bow = 40 if x < to_x else -40
        return (x, top), (x + bow, top - 22), (to_x - bow, top - 22), (to_x, top)
    first, last = (first[0], first[1] + APART), (last[0], last[1] - APART)
    swing = 60 + 0.15 * (abs(last[0] - first[0]) + abs(last[1] - first[1]))
    if link.events == ("commit", "begin") and last[0] < first[0]:
        swing *= 1.6  # around the ends of both boxes, and between them
    out, back = (swing if event == "commit" else -swing for event in link.events)
    return first, (first[0] + out, first[1]), (last[0] + back, last[1]), last


def _side_by_side(curves: Sequence[Curve]) -> list[Curve]:
    """The same curves, shifted so that those between the same columns don't lie on one another."""
    gaps: dict[int, list[int]] = {}
    for at, curve in enumerate(curves):
        if len(curve) == 4 and abs(curve[0][1] - curve[3][1]) > 2 * APART:
            gaps.setdefault(round((curve[0][0] + curve[3][0]) / 20), []).append(at)
    found = [*curves]
    for gap in gaps.values():
        gap.sort(key=lambda at: curves[at][0][1] + curves[at][3][1])
        step = min(26.0, 90.0 / max(1, len(gap) - 1))
        for place, at in enumerate(gap):
            first, one, other, last = curves[at]
            more = (place - (len(gap) - 1) / 2) * step
            found[at] = first, (one[0] + more, one[1]), (other[0] + more, other[1]), last
    return found


def _places_of_numbers(curves: Sequence[Curve], boxes: Sequence[Box]) -> list[Point]:
    """The place of each curve's number: its middle, or the nearest place to it that is away from
    the previous numbers and outside of boxes."""
    taken: list[Point] = []
    for curve in curves:
        places = [_on_curve(curve, at) for at in ALONG]
        clear = [
            at
            for at in places
            if all(hypot(at[0] - x, at[1] - y) > 24 for x, y in taken)
            and not any(box.holds(at) for box in boxes)
        ]
        taken.append((clear or places)[0])
    return taken


def _on_curve(curve: Curve, at: float) -> Point:
    """The point of a Bezier curve after this fraction of the way."""
    points = [*curve]
    while len(points) > 1:
        points = [
            (x + at * (to_x - x), y + at * (to_y - y))
            for (x, y), (to_x, to_y) in zip(points, points[1:])
        ]
    return points[0]


def _bent(start: Point, end: Point, is_in_one_session: bool) -> Point:
    """The point towards which the arc bends."""
    (x, y), (to_x, to_y) = start, end
    across, down = to_x - x, to_y - y
    length = max(1.0, (across**2 + down**2) ** 0.5)
    if is_in_one_session and abs(across) < WIDTH + GAP + 1:
        bend = 0.0
    elif abs(across) < 1:  # one above the other
        bend = WIDTH * 0.62
    elif abs(down) < 1:  # side by side
        bend = 50 + 0.28 * length
    else:
        bend = 0.2 * length
    return (x + to_x) / 2 - down / length * bend, (y + to_y) / 2 + across / length * bend
