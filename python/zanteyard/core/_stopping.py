"""The signals that end a run, and who handles them.

A terminal, `timeout` or a service manager sends them to the programs that this one has started as
well. The last round needs those. So the threads that start the auditor block these signals, and the
auditor inherits that: it ends with its input, also if this program is killed. The proxy is in a
group of its own. If it gets the signal as well, its audit goes on until this program has stopped it
(docs/PROXY_FEED.md).
"""

import signal

STOPS = (signal.SIGTERM, signal.SIGINT, signal.SIGHUP)
LEAVES = (signal.SIGTERM, signal.SIGHUP)  # after these the proxy goes on
