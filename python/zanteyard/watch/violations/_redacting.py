"""Removes values: constants and comments in statements, parameters, and values in rows' keys."""

from dataclasses import replace

from ...core._redacting import without_constants
from ._described import Described, Statement
from ._violations import Answered, Row


def without_values(answered: Answered) -> Answered:
    """The same answer, with rows named by the auditor's numbers of their keys."""
    keys = {
        number: Row(row.table, f"#{number}", (), without_constants(row.condition))
        for number, row in answered.keys.items()
    }
    its = {id: _described(one) for id, one in answered.transactions.items()}
    return Answered(its, keys)


def _described(one: Described) -> Described:
    return replace(one, statements=tuple(map(_statement, one.statements)))


def _statement(one: Statement) -> Statement:
    return replace(one, text=without_constants(one.text), parameters=None, place="")
