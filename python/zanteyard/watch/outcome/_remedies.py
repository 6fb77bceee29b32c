"""What a reader can do about each reason for which something wasn't checked."""

from collections.abc import Sequence

# By the words that a reason begins with; the first one that fits. A reason without a remedy stands
# alone.
REMEDIES: Sequence[tuple[str, str]] = (
    ("its writes couldn't be told apart: its COMMIT was sent", "send COMMIT by itself"),
    ("its writes couldn't be told apart: it has a statement", "the statements below say why"),
    ("its writes couldn't be told apart: what names", "it was a first run"),
    ("its writes couldn't be told apart", "put BEGIN and COMMIT around the statement"),
    ("no statement of it was seen", "the statements below say why"),
    ("some statements weren't seen", "the statements below say why"),
    ("some row reads or writes were left out", "the rows below say why"),
    ("it read and wrote no row", "see SELECTs and writes that found no row"),
    ("a statement of it found no row", "see SELECTs and writes that found no row"),
    ("it found no row",
     "see the conditions not followed, or ask by a whole primary key at repeatable read or "
     "serializable"),
    ("reported too late", "the machine, the network or Redis was slow"),
    ("it ended before the audit began", "start the audit some seconds before the application"),
    ("it was under way when the audit began",
     "start the audit some seconds before the application"),
    ("its machine's proxy wasn't connected", "see why Redis, its network or that proxy failed"),
    ("no audit was running", "the log says why it ended"),
    ("the audit ended before its next round",
     "end the audit a second after the application; if it ended by itself, the log says why"),
    ("reported faster than they could be processed", "audit a share of the connections: --sample"),
    ("the server didn't answer the audit", "look for what keeps it busy, or locks its catalog"),
    ("the auditor fell behind", "audit a share of the connections: --sample"),
    ("its connection has no session", "use at most 256 connections, or a pooler before the proxy"),
    ("it ran during a meeting", "short transactions seldom do"),
    ("the outcome of the one before", "see those whose outcome is unknown"),
    ("its outcome is unknown",
     "its connection was lost during COMMIT, it was prepared for COMMIT PREPARED, or a procedure "
     "committed a part of it"),
    ("its connection uses another database", "audit that one as well"),
    ("its connection isn't in the sample", "audit all connections: no --sample"),
    ("on a connection to another server", "let all connections lead to the audited server"),
    ("the connection is to another server", "let all connections lead to the audited server"),
    ("in a table without a key",
     "add a primary key, as `zanteyard prepare` says, unless the table was just truncated"),
    ("no primary key", "add a primary key: `zanteyard prepare` says how"),
    ("more than 256", "read or write fewer rows in one transaction"),
    ("more than 65,536", "write fewer rows in one transaction"),
    ("more reads of one transaction", "read fewer rows in one transaction"),
    ("its version is unknown", "it was written before the audit, or by what isn't audited"),
    ("its version may be from a savepoint", "let the audit call pg_walinspect"),
    ("its table's key has changed", "it was just redefined or truncated"),
    ("an absent row, read without", "ask at repeatable read or serializable"),
    ("an aggregate", "--aggregates, or select the rows"),
    ("MIN or MAX, for which", "order by the column, with LIMIT 1"),
    ("it reads too many rows to be listed", "it is left as it is for a minute"),
    ("GROUP BY without", "order by the columns that it groups by"),
    ("GROUP BY", "order by the columns that it groups by"),
    ("DISTINCT", "order by all its columns, by name, or select the rows themselves"),
    ("UNION", "run it as several SELECTs"),
    ("HAVING", "select the rows themselves"),
    ("a subquery", "run it as a SELECT of its own"),
    ("WITH", "run it as a SELECT of its own"),
    ("a view", "use its tables"),
    (
        "the server asks for no credential",
        "give the role a password, and its rule in pg_hba.conf scram-sha-256; or use "
        "--trust-clients",
    ),
    ("a materialized view", "select from its tables"),
    ("what a function reads", "run its SELECTs yourself"),
    ("a procedure", "run its statements yourself"),
    ("what INSERT selects", "select the rows first"),
    ("COPY TO", "use SELECT"),
    ("MERGE", "use INSERT .. ON CONFLICT, or UPDATE"),
    ("the hidden columns would make its plan",
     "ANALYZE its tables; else more work_mem may help, or an index that sorts"),
    ("an index may answer", "select a column that no index has"),
    ("the hidden columns might change the order", "add an ORDER BY of the whole key"),
    ("two tables with the same name", "give each its own alias"),
    ("tables of an UPDATE or DELETE", "select their rows first"),
    ("not tried on its connection yet", "it was a first run, or trials took longer than --hold"),
    ("a new statement, where statements", "don't make up names in statements: use parameters"),
    ("what names refer to wasn't known yet", "it was a first run"),
    ("what names refer to wasn't known, just after SET",
     "set that once for each connection or role, or wait for its answer"),
    ("what names refer to wasn't known, just after a text", "the statements below say which"),
    ("what names refer to wasn't known", "it was a first run"),
    ("the audit's columns can't be read", "grant SELECT on the table's key columns"),
    ("the connection's user may not read", "grant SELECT on the table's key columns"),
    ("a pooler between proxy and server", "put the pooler before the proxy"),
    ("a row that wasn't there", "ask at repeatable read or serializable"),
    ("it can't be parsed", "please report the statement"),
)


def remedy_for(reason: str) -> str:
    """One clause, or an empty string."""
    return next((told for begins, told in REMEDIES if reason.startswith(begins)), "")


def with_remedy(reason: str) -> str:
    told = remedy_for(reason)
    return f"{reason}: {told}" if told else reason
