"""The paths of the page's server."""

import json
import re

from . import _live_page, _violation_page
from ..outcome._board import Board
from ..outcome._json import status_json
from ._style import NOW
from ._web import TEXT, Answer

JSON = "application/json"
VIOLATION = re.compile(r"/violation/([1-9]\d{0,8})(\.jsonl|\.txt)?")


class Pages:
    """Answers requests for a path; safe for use by several threads."""

    def __init__(self, board: Board) -> None:
        self._board = board

    def __call__(self, path: str) -> Answer | None:
        if path == "/":
            text = _live_page.whole_page(self._board.status())
            return Answer(text, policy=_live_page.POLICY)
        if path == NOW:
            return Answer(_live_page.changing(self._board.status()))
        if path == "/status.json":
            return Answer(json.dumps(status_json(self._board.status())), JSON)
        found = VIOLATION.fullmatch(path)
        return self._violation(int(found[1]), found[2] or "") if found else None

    def _violation(self, number: int, form: str) -> Answer | None:
        status = self._board.status()
        one = next((it for it in status.violations if it.number == number), None)
        if one is None:
            return None
        if form == ".jsonl":
            return Answer(one.story.script, TEXT)
        if form == ".txt":
            return Answer("".join(f"{line}\n" for line in one.lines()), TEXT)
        page = _violation_page.violation_page(one, status.title, status.origin)
        return Answer(page, policy=_violation_page.POLICY)
