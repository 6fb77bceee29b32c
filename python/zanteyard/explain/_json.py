"""Verdicts as JSON, for other programs (docs/FORMATS.md, "For other programs")."""

import json
from collections.abc import Sequence
from typing import Any

from ..core._verdict_kinds import Kind
from ..core._visible import say
from ._anomalies import MEANINGS
from ._levels import Level
from ._report import Story


def say_json(value: object) -> None:
    """Prints a value on a line of its own. What isn't ASCII is escaped, so it is safe anywhere."""
    say(json.dumps(value, separators=(",", ":")), flush=True)


def story_json(story: Story) -> dict[str, Any]:
    """A verdict. What doesn't apply to it is left out."""
    found: dict[str, Any] = {
        "verdict": Kind.UNDECIDED if story.kind == Kind.SPENT else story.kind,
        "promise": story.promise.name,
        "sentence": story.sentence,
        "checked": sum(story.counts),
    }
    if story.order:
        found["order"] = list(story.order)
    if story.waiting:
        found["waiting"] = list(story.waiting)
    if story.kind != Kind.VIOLATED:
        return found
    if story.anomaly is not None:
        name = story.anomaly.name
        found["anomaly"] = {
            "name": name,
            "meaning": MEANINGS.get(name, ""),
            "sentence": story.anomaly.sentence,
        }
    found["transactions"] = list(story.lines)
    found["because"] = list(story.because)
    found["breaks"] = [each.name for each in story.standing.broken]
    found["keeps"] = [each.name for each in story.standing.kept]
    found["script"] = story.script
    found["others"] = [story_json(each) for each in story.others]
    return found


def levels_json(levels: Sequence[Level]) -> list[dict[str, str]]:
    """The isolation levels, the strongest first."""
    return [
        {
            "promise": level.promise.name,
            "title": level.promise.title,
            "answer": level.answer,
            "why": level.why,
        }
        for level in levels
    ]
