"""The violations by shape, as a part of the page."""

from collections.abc import Iterator, Sequence

from ...core._visible import escaped
from ..violations._described import clock
from ..violations._groups import UNEXPLAINED, Group
from ...core._numbers import counted

SHOWN = 64  # shapes


def groups_section(groups: Sequence[Group], more: int) -> Iterator[str]:
    """How often each shape was found; known ones come last."""
    if not groups:
        return
    yield '<h2>Violations by shape</h2><table class="stack"><thead><tr>'
    yield '<th class="count">Times</th><th>Anomaly and statements</th><th>First</th><th>Last</th>'
    yield "<th>Name</th></tr></thead><tbody>"
    for one in sorted(groups, key=lambda one: one.is_known)[:SHOWN]:
        about = escaped(one.about or UNEXPLAINED, 200)
        if one.number and not one.is_known:
            about = f'<a href="/violation/{one.number}">{about}</a>'
        statements = "".join(f"<br><code>{escaped(str(ran), 200)}</code>" for ran in one.statements)
        known = '<br><span class="soft">set aside</span>' if one.is_known else ""
        yield (
            f'<tr><td class="count" data-of="Times">{one.count:,}</td>'
            f'<td class="shape">{about}{statements}</td>'
            f'<td class="time" data-of="First">{clock(one.first, False)}</td>'
            f'<td class="time" data-of="Last">{clock(one.last, False)}</td>'
            f'<td data-of="Name">{one.name}{known}</td></tr>'
        )
    yield "</tbody></table>"
    beyond = sum(one.count for one in groups[SHOWN:]) + more
    if beyond:
        yield f"<p>{counted(beyond, 'more violation')} of other shapes.</p>"
