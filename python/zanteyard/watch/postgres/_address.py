"""What the audit's own connections don't follow of libpq's keywords. The proxy refuses the same,
in the same words (its package address); a test compares both."""

from collections.abc import Mapping
from typing import Any

_REVOKED = "lists of revoked certificates aren't read"
_PROTOCOLS = ("TLSv1", "TLSv1.1", "TLSv1.2", "TLSv1.3")
# By keyword: the values that can be used, besides an empty one, and what else to say.
_LIMITED: Mapping[str, tuple[tuple[str, ...], str]] = {
    "channel_binding": (("disable", "prefer"), ""),
    "gssencmode": (("disable", "prefer"), ""),
    "replication": (("0", "false", "no", "off"), ""),
    "target_session_attrs": (("any", "read-write", "primary", "prefer-standby"), ""),
    "ssl_min_protocol_version": (_PROTOCOLS, "only TLSv1 to TLSv1.3 can be used here"),
    "ssl_max_protocol_version": (_PROTOCOLS, "only TLSv1 to TLSv1.3 can be used here"),
    "sslpassword": ((), "use a key without a password, which only its owner may read"),
    "sslcrl": ((), _REVOKED),
    "sslcrldir": ((), _REVOKED),
    "requirepeer": (
        (),
        "the server's user isn't looked at: use a socket's folder that only it may write to",
    ),
}
_HIDDEN = ("sslpassword",)


def refused(parameters: Mapping[str, Any]) -> str:
    """Why a server's parameters can't be followed, by the keyword's name; empty if they can."""
    for name, (values, words) in _LIMITED.items():
        value = str(parameters.get(name) or "")
        if value and value not in values:
            shown = ".." if name in _HIDDEN else value
            usable = ", ".join(values)
            return f"{name}={shown}: {words or f'only {usable} can be used here'}"
    return ""
