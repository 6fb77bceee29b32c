"""Runs a transaction, again if it is aborted; and the fence by which a client joins."""

import math
import time
from collections.abc import Callable, Iterator
from contextlib import contextmanager
from typing import TypeVar

from ..core._own_keys import FENCE
from ..core.errors import AbortedError, OutcomeUnknownError
from ._transaction import Transaction

Result = TypeVar("Result")


def join_behind(transaction: Transaction) -> None:
    """Writes a fence that follows the last one."""
    transaction.exchange(FENCE, "")


@contextmanager
def whole(transaction: Transaction) -> Iterator[Transaction]:
    try:
        yield transaction
    except OutcomeUnknownError:
        if transaction.is_committing:  # a statement that is a transaction by itself
            transaction.find_out()
        else:
            transaction.rollback()
        raise
    except BaseException as error:
        transaction.find_out_alone(error)
        transaction.rollback()
        raise
    if not transaction.is_over:  # the body may have ended it
        transaction.commit()


def attempted(
    begin: Callable[[], Transaction],
    body: Callable[[Transaction], Result],
    attempts: int,
    ends: float = math.inf,
) -> Result:
    for left in reversed(range(attempts)):
        try:
            with whole(begin()) as transaction:
                result = body(transaction)
            return result
        except AbortedError:
            if not left or time.monotonic() >= ends:
                raise
    raise ValueError("there must be at least one attempt")
