"""Calls with a time limit."""

import threading
from concurrent.futures import Future, InvalidStateError
from collections.abc import Callable
from concurrent.futures import TimeoutError as FutureTimeoutError
from typing import Any


class LateError(TimeoutError):
    """The call didn't return in time."""


def within(seconds: float, call: Callable[[], Any], drop: Callable[[Any], object] = bool) -> Any:
    """Returns what `call` returns. The call runs in a thread, which is abandoned after this many
    seconds, since even the lookup of a host name has no time limit of its own. Then LateError is
    raised. If the call ends later, its result, or None if it failed, is passed to `drop`."""
    future: Future[Any] = Future()

    def run() -> None:
        result, failure = None, None
        try:
            result = call()
        except Exception as error:
            failure = error
        try:
            future.set_exception(failure) if failure else future.set_result(result)
        except InvalidStateError:  # nobody waits any more
            drop(result)

    threading.Thread(target=run, daemon=True).start()
    try:
        return future.result(seconds)
    except FutureTimeoutError:
        if future.cancel():
            raise LateError(f"the server didn't answer for {seconds:.3g} s") from None
        return future.result()
    except BaseException:
        future.cancel()
        raise
