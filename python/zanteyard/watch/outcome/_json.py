"""An audit's state and its violations as JSON, for other programs (docs/FORMATS.md, "For other
programs")."""

from collections.abc import Sequence
from typing import Any

from ...explain._json import story_json
from ._ending import kind_of, status_of
from ..postgres._facts import Finding, Server
from ..violations._groups import Group
from ..postgres._schema import Table
from ._state import Seen, Status
from ..violations._violations import Told, Violation


def violation_json(one: Violation) -> dict[str, Any]:
    """An explained violation, with what the application ran."""
    return {
        "number": one.number,
        "round": one.round,
        "at": one.at,
        "title": one.title,
        "allowed": one.allowed,
        "group": one.group,
        **story_json(one.story),
        "ran": [_ran(each) for each in one.told],
    }


def _ran(one: Told) -> dict[str, Any]:
    found: dict[str, Any] = {"label": one.label, "session": one.id[0], "number": one.id[1]}
    its = one.its
    if its is None:
        return found
    found.update(
        application=its.application,
        address=its.address,
        user=its.user,
        level=its.level,
        outcome=its.outcome,
        began=its.began,
        ended=its.ended,
        xid=its.xid,
    )
    reads = [*one.reads, *[()] * len(its.statements)]
    found["statements"] = [
        {"at": each.at, "text": each.text, "parameters": each.parameters, "origin": each.origin,
         "reads": list(read)}
        for each, read in zip(its.statements, reads)
    ]
    return found


def status_json(status: Status, has_violations: bool = True) -> dict[str, Any]:
    """The state of a whole run. `verdict` and `status` are what it would end with."""
    found: dict[str, Any] = {
        "verdict": kind_of(status),
        "status": status_of(status),
        "promise": status.promise.name,
        "title": status.title,
        "database": status.database,
        "server": status.server,
        "began": status.began,
        "now": status.now,
        "checked_until": status.checked_until,
        "audits": status.audit,
        "rounds": status.rounds_count,
        "violations": status.violations_count,
        "known_violations": status.known_count,
        "groups": groups_json(status.groups),
        "ungrouped": status.ungrouped,
        "pending_reads": status.pending_count,
        "lost": [
            {"at": one.at, "reason": one.reason} for one in status.ended if one.is_lost
        ],
        "seen": _seen(status.whole_seen),
        "before": {
            "unaudited": status.unaudited_before,
            "untold": status.untold_before,
        },
    }
    if has_violations:
        found["explained"] = [violation_json(one) for one in status.violations]
    return found


def groups_json(groups: Sequence[Group]) -> list[dict[str, Any]]:
    """The violations by shape."""
    return [
        {
            "name": one.name,
            "title": one.title,
            "tables": list(one.shape.tables),
            "statements": [{"text": ran.text, "origin": ran.origin} for ran in one.statements],
            "count": one.count,
            "first": one.first,
            "last": one.last,
            "violation": one.number,
            "known": one.is_known,
        }
        for one in groups
    ]


def _seen(seen: Seen) -> dict[str, Any]:
    return {
        **seen.totals.values(),
        "conditions": seen.conditions.values(),
        "statements": [
            {
                "shape": each.shape,
                "reason": each.reason,
                "reads": each.is_reads,
                "count": each.count,
                "first": each.first,
            }
            for each in seen.shapes
        ],
        "connections": {
            "now": seen.connections,
            "audited": seen.audited_connections,
            "ever": seen.connections_ever,
            "refused": dict(seen.connections_refused),
        },
    }


def prepared_json(
    server: Server, found: Sequence[Finding], tables: Sequence[Table], is_ready: bool
) -> dict[str, Any]:
    """What `prepare` found."""
    return {
        "ready": is_ready,
        "server": {"version": server.version, "database": server.database, "role": server.user},
        "findings": [
            {
                "right": each.is_right,
                "needed": each.is_needed,
                "sentence": each.sentence,
                "remedy": "" if each.is_right else each.remedy,
            }
            for each in found
        ],
        "tables": [
            {"name": each.name, "kind": each.kind, "seen": each.is_seen, "reason": each.reason,
             "remedy": each.remedy}
            for each in tables
        ],
    }
