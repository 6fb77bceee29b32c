"""How other machines feed an audit over a Redis: the options that `watch`, `proxy` and `serve`
share, and the proxy program's arguments for them."""

import argparse
import os
import stat

from ...remote._shared_key import ENVIRONMENT as KEY

REDIS = "ZANTEYARD_REDIS"  # the environment variable with its URL
LEAST = 16  # bytes of a key
MAKE = "(umask 077; head -c 32 /dev/urandom | base64 > FILE) makes one"


def add_sharing(
    command: argparse.ArgumentParser,
    others: str = "proxies",
    more: str = "; see the example in `zanteyard proxy --help`",
) -> None:
    command.add_argument(
        "--redis", metavar="URL",
        help=f"the Redis by which several {others} feed one audit (or the environment's {REDIS})"
        f"{more}",
    )
    command.add_argument("--audit", metavar="NAME", help="the audit's name in that Redis")
    command.add_argument(
        "--key", metavar="FILE",
        help=f"the key file that {others} and audit share; only its owner may read it",
    )


def mistake_of(asked: argparse.Namespace, is_needed: bool = False) -> str | None:
    """What is wrong with these options; None if nothing is."""
    is_for_this = asked.key and asked.key != os.environ.get(KEY)
    if not (is_needed or asked.audit or is_for_this):
        return None  # what is in the environment may be meant for something else
    for name, value in (("--redis", asked.redis), ("--audit", asked.audit), ("--key", asked.key)):
        if not value:
            return f"{name} is missing: --redis, --audit and --key belong together"
    try:
        state = os.stat(asked.key)
    except OSError as error:
        return f"can't read the key {asked.key}: {error.strerror}. {MAKE}"
    if stat.S_IMODE(state.st_mode) & 0o077:
        return f"other users can access the key {asked.key}: run chmod 600 {asked.key}"
    if state.st_size < LEAST:
        return f"the key {asked.key} has fewer than {LEAST} bytes. {MAKE}"
    return None


def words_of(asked: argparse.Namespace, environment: dict[str, str]) -> list[str]:
    """Arguments for the proxy's program. The URL goes into `environment`, which other users can't
    read."""
    if not asked.audit:
        environment.pop(REDIS, None)
        return []
    environment[REDIS] = asked.redis
    return ["--audit", asked.audit, "--key", asked.key]
