"""The keys that the collector writes for itself, and the limits of a script's lines."""

FENCE = "zanteyard fence"  # the key of sessions' fences; its number is 0
MARK = "zanteyard mark"  # written at a meeting after its fence, and read by all sessions
FLAG = "zanteyard flag "  # followed by a session's number: a key that only this session writes
PLAIN_FENCE = "zanteyard's fence"  # FENCE in a small part, where a fence may be none
OWN = (FENCE, MARK, FLAG, PLAIN_FENCE)  # prefixes of the collector's own keys
LONGEST = 256  # transactions of one line
FORM = 2  # of scripts; form 1 says nothing about aborted transactions
LARGE_FORM = 3  # of scripts with room for many more transactions, and for more sessions


def is_own(key: object) -> bool:
    """Whether this key belongs to the collector's own transactions."""
    return isinstance(key, str) and key.startswith(OWN)
