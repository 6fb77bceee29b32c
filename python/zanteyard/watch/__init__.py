"""`zanteyard watch`: audits any application on PostgreSQL; only its connection string changes.

The program `zanteyard-proxy` stands between the applications and their server. It sees what they
read, takes what was written from the server's own log, and writes both as lines for the auditor.
This package starts the proxy, passes its lines to the auditor, and shows the results: on standard
error, on a page, as metrics, and as an outcome at the end. docs/WATCH.md says how to use it.
"""
