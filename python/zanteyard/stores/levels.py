"""The isolation levels of each store: each level's name on the command line and its full name, the
strictest first."""

from collections.abc import Mapping

SNAPSHOT = "snapshot isolation"  # MariaDB's repeatable read with innodb_snapshot_isolation
# What Redis watches: each key, before it is read; or each written key, which is then compared with
# what was read before; or nothing. With "single commands" each write takes effect at once.
WATCHED, COMPARED, UNWATCHED, SINGLE = "watched", "compared", "unwatched", "single commands"
# SQLite's "read uncommitted" applies to connections that share a cache, as those of one process do
# here. With "autocommit" each statement is its own transaction, as in an application that begins
# none.
DEFERRED, IMMEDIATE = "deferred", "immediate"
UNCOMMITTED, AUTOCOMMIT = "read uncommitted", "autocommit"

LEVELS: Mapping[str, Mapping[str, str]] = {
    "postgres": {
        "serializable": "serializable",
        "repeatable": "repeatable read",
        "committed": "read committed",
    },
    "mariadb": {
        "serializable": "serializable",
        "snapshot": SNAPSHOT,
        "repeatable": "repeatable read",
        "committed": "read committed",
        "uncommitted": "read uncommitted",
    },
    "redis": {
        "watched": WATCHED,
        "compared": COMPARED,
        "unwatched": UNWATCHED,
        "single": SINGLE,
    },
    "sqlite": {
        "immediate": IMMEDIATE,
        "deferred": DEFERRED,
        "uncommitted": UNCOMMITTED,
        "autocommit": AUTOCOMMIT,
    },
}


def checked_level(store: str, level: str) -> str:
    """The level's full name, if this store has it. Raises ValueError otherwise."""
    levels = LEVELS[store].values()
    if level not in levels:
        raise ValueError(f"{level} isn't one of {', '.join(levels)}")
    return level
