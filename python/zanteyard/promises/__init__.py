"""Checks promises other than serializability with the auditor. It is asked about snapshot isolation
itself; real-time order and prefix consistency are expressed by what it is given
(docs/PROMISES.md)."""
