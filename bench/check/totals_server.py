"""What a PostgreSQL says of itself: its log of all statements, pg_stat_statements,
pg_stat_database, and a replication slot. Used by `totals.py`."""

import collections
import ctypes
import json
import os
import re
import time
from collections.abc import Iterable, Iterator
from dataclasses import dataclass, field, replace
from typing import Any

import psycopg2
from proxy_pair import Server

SETTINGS = """
shared_preload_libraries = 'pg_stat_statements'
pg_stat_statements.max = 20000
pg_stat_statements.track = 'top'
log_destination = 'jsonlog'
logging_collector = on
log_directory = 'said'
log_filename = 'server.log'
log_file_mode = 0644
log_rotation_size = 0
log_rotation_age = 0
log_statement = 'all'
max_connections = 200
"""
SLOT = "oracle"
OWN_NAME = re.compile(r"zanteyard\.[a-z]")  # the proxy's own statements; its twins have numbers
NO_TABLE = {
    "VariableSetStmt", "VariableShowStmt", "DiscardStmt", "DeallocateStmt",
    "ListenStmt", "UnlistenStmt", "NotifyStmt", "LockStmt", "CheckPointStmt", "ConstraintsSetStmt",
    "VacuumStmt", "ClusterStmt", "ReindexStmt", "PrepareStmt", "ClosePortalStmt",
}
WRITES = {"InsertStmt", "UpdateStmt", "DeleteStmt", "MergeStmt", "TruncateStmt"}
AGGREGATES = frozenset(
    "count sum avg min max string_agg array_agg bool_or bool_and every json_agg jsonb_agg stddev "
    "variance".split()
)


class _Parsed(ctypes.Structure):
    _fields_ = [("tree", ctypes.c_char_p), ("output", ctypes.c_char_p), ("error", ctypes.c_void_p)]


class Parser:
    """PostgreSQL's own grammar, as libpg_query has it."""

    def __init__(self) -> None:
        self.library = ctypes.CDLL("libpg_query.so.1504.0")
        self.library.pg_query_parse.restype = _Parsed
        self.library.pg_query_parse.argtypes = [ctypes.c_char_p]
        self.library.pg_query_free_parse_result.argtypes = [_Parsed]

    def statements(self, text: str) -> list[dict[str, Any]] | None:
        """The trees of a text's statements; None if it can't be parsed."""
        found = self.library.pg_query_parse(text.encode())
        try:
            if found.error:
                return None
            return [one["stmt"] for one in json.loads(found.tree)["stmts"] if one.get("stmt")]
        finally:
            self.library.pg_query_free_parse_result(found)


def nodes(tree: Any) -> Iterator[tuple[str, Any]]:
    """Each named node of a tree."""
    if isinstance(tree, dict):
        for name, value in tree.items():
            yield name, value
            yield from nodes(value)
    elif isinstance(tree, list):
        for value in tree:
            yield from nodes(value)


@dataclass(frozen=True)
class Statement:
    """What a statement is: its kind (select, write, copy, fetch, execute, definition, control,
    failed, other), and whether it is on a table of the application. `plain` is a SELECT of rows: no
    aggregate, no DISTINCT, no grouping, no set operation."""

    kind: str
    on_table: bool = False
    plain: bool = False
    cursor: str = ""  # that it declares, or fetches from
    ends: str = ""  # commit or rollback, of a transaction
    name: str = ""  # of a statement that controls a transaction


class Reader:
    """Says of texts what they are."""

    def __init__(self, functions: Iterable[str]) -> None:
        self.parser = Parser()
        self.functions = frozenset(functions)  # those of the application
        self.known: dict[str, list[Statement] | None] = {}

    def read(self, text: str) -> list[Statement] | None:
        if text not in self.known:
            trees = self.parser.statements(text)
            self.known[text] = None if trees is None else [self._one(tree) for tree in trees]
        return self.known[text]

    def prepared(self, text: str) -> Statement | None:
        """What an EXECUTE runs, from the text that prepared it."""
        trees = self.parser.statements(text) or [{}]
        is_sql = "PrepareStmt" in trees[0]
        tree = trees[0]["PrepareStmt"]["query"] if is_sql else trees[0]
        return self._one(tree) if tree else None

    def _one(self, tree: dict[str, Any]) -> Statement:
        ((name, body),) = tree.items()
        if name == "TransactionStmt":
            return self._transaction(body)
        on_table = self._on_table(tree)
        if name == "SelectStmt" and "intoClause" not in body:
            kind = "write" if any(each in WRITES for each, _ in nodes(body)) else "select"
            return Statement(kind, on_table, kind == "select" and not _is_folded(body))
        if name in WRITES:
            return Statement("write", on_table)
        if name == "CopyStmt":
            return Statement("copy" if not body.get("is_from") else "write", on_table)
        if name == "DeclareCursorStmt":
            return replace(self._one(body["query"]), cursor=body["portalname"])
        if name == "ExecuteStmt":
            return Statement("execute", True)
        if name == "ExplainStmt":
            options = [its.get("defname") for kind, its in nodes(body) if kind == "DefElem"]
            ran = "analyze" in options
            return Statement("other", on_table and ran)
        if name == "FetchStmt":
            its = Statement("fetch", True, cursor=body["portalname"])
            return Statement("other") if body.get("ismove") else its
        if name in NO_TABLE:
            return Statement("other")
        if name in ("DoStmt", "CallStmt"):
            return Statement("other", True)
        return Statement("definition", True)

    @staticmethod
    def _transaction(body: dict[str, Any]) -> Statement:
        kind = body.get("kind", "TRANS_STMT_BEGIN").removeprefix("TRANS_STMT_").lower()
        ends = {"commit": "commit", "prepare": "commit", "rollback": "rollback"}.get(kind, "")
        return Statement("control", ends=ends, name=kind)

    def _on_table(self, tree: dict[str, Any]) -> bool:
        """Whether it names a table that isn't the catalog's, or calls a function of the
        application."""
        within = {its["ctename"] for kind, its in nodes(tree) if kind == "CommonTableExpr"}
        for kind, its in nodes(tree):
            if kind == "RangeVar" or kind == "relation" and "relname" in its:
                schema, name = its.get("schemaname", ""), its["relname"]
                is_catalog = schema in ("pg_catalog", "information_schema")
                if not is_catalog and not (not schema and (name in within or name[:3] == "pg_")):
                    return True
            if kind == "FuncCall":
                last = its["funcname"][-1]["String"]["sval"]
                if last in self.functions:
                    return True
        return False


def _is_folded(body: dict[str, Any]) -> bool:
    """Whether a row of the result isn't one of a table."""
    if body.get("op", "SETOP_NONE") != "SETOP_NONE":
        return True
    if "groupClause" in body or "distinctClause" in body:
        return True
    return any(
        kind == "FuncCall" and "over" not in its
        and (its.get("agg_star") or its["funcname"][-1]["String"]["sval"] in AGGREGATES)
        for kind, its in nodes(body.get("targetList", []))
    )


@dataclass
class Said:
    """The server's totals of a run."""

    # The log of all statements: transactions on tables, and their statements that ended well.
    transactions: int = 0
    rolled_back: int = 0
    apart: int = 0  # transactions without a table
    selects: int = 0  # SELECTs, cursors, COPY .. TO, also of rolled-back transactions
    selects_rolled_back: int = 0
    writes: int = 0
    writes_rolled_back: int = 0
    logged: int = 0  # statements of clients
    unparsed: collections.Counter[str] = field(default_factory=collections.Counter)
    # pg_stat_statements: the same SELECTs, with the rows that they returned.
    selects_told: int = 0
    rows_read: int = 0
    plain: int = 0  # SELECTs of rows: no aggregate, DISTINCT, GROUP BY, UNION
    seen: int = 0  # SELECTs that reached the server with hidden columns
    seen_plain: int = 0
    seen_rows: int = 0
    # The slot: each row of a transaction once.
    rows_written: int = 0
    keyless: int = 0  # of these, changes of rows without a key
    commits: int = 0  # with rows
    # pg_stat_user_tables and pg_stat_database.
    tuples: int = 0  # inserted, updated and deleted, also in what was rolled back
    xact_commit: int = 0
    xact_rollback: int = 0


class Oracle:
    """A server whose every word is kept."""

    def __init__(self, folder: str) -> None:
        self.server = Server(folder)
        self.server.initialize()
        with open(os.path.join(self.server.data, "postgresql.conf"), "a", encoding="utf-8") as file:
            file.write(SETTINGS)
        self.server.start()
        self.log = os.path.join(self.server.data, "said/server.json")
        self.at = 0

    def run(self, text: str, database: str = "postgres", *values: Any) -> list[tuple[Any, ...]]:
        connection = psycopg2.connect(
            host="127.0.0.1", port=self.server.port, user="postgres", dbname=database,
            application_name="oracle",
        )
        try:
            connection.autocommit = True
            cursor = connection.cursor()
            cursor.execute(text, values or None)
            return cursor.fetchall() if cursor.description else []
        finally:
            connection.close()

    def begin(self, database: str) -> None:
        """From here on it is counted."""
        self.run("CREATE EXTENSION IF NOT EXISTS pg_stat_statements")
        self.run("SELECT pg_create_logical_replication_slot(%s, 'test_decoding')", database, SLOT)
        self.run("SELECT pg_stat_reset()", database)
        self.run("SELECT pg_stat_statements_reset()")
        self.at = os.path.getsize(self.log)

    def end(self, database: str) -> Said:
        """What the server counted since. Its clients have to be gone."""
        until = time.monotonic() + 60
        while self.run(CLIENTS, "postgres", database) != [(0,)] and time.monotonic() < until:
            time.sleep(0.1)
        time.sleep(1.5)  # what is counted is given to others within a second
        said = Said()
        reader = Reader(name for (name,) in self.run(FUNCTIONS, database))
        self._statistics(database, said)
        self._slot(database, said)
        self._statements(database, reader, said)
        self._logged(database, reader, said)
        return said

    def _statistics(self, database: str, said: Said) -> None:
        ((said.xact_commit, said.xact_rollback),) = self.run(
            "SELECT xact_commit, xact_rollback FROM pg_stat_database WHERE datname = %s",
            "postgres", database,
        )
        ((said.tuples,),) = self.run(
            "SELECT coalesce(sum(n_tup_ins + n_tup_upd + n_tup_del), 0)::int "
            "FROM pg_stat_user_tables", database,
        )

    def _slot(self, database: str, said: Said) -> None:
        keys: dict[str, list[str]] = {}
        for name, column in self.run(KEYS, database):
            keys.setdefault(name, []).append(column)
        changes = self.run(
            "SELECT xid::text, data FROM pg_logical_slot_get_changes(%s, NULL, NULL)",
            database, SLOT,
        )
        self.run("SELECT pg_drop_replication_slot(%s)", database, SLOT)
        rows: set[tuple[str, ...]] = set()
        commits = set()
        for xid, data in changes:
            change = CHANGE.match(data)
            if change is None:
                continue
            commits.add(xid)
            table, values = change["table"], change["values"]
            if table not in keys:
                said.keyless += 1
                continue
            for part in filter(None, re.split(r"^old-key: | new-tuple: ", values)):
                its = dict(_values(part))
                key = [its.get(column) for column in keys[table]]
                if None not in key:
                    rows.add((xid, table, *map(str, key)))
        said.commits = len(commits)
        said.rows_written = len(rows) + said.keyless

    def _statements(self, database: str, reader: Reader, said: Said) -> None:
        fetched: collections.Counter[str] = collections.Counter()
        declared: dict[str, list[int]] = {}  # how often each cursor was, and how often it was seen
        for text, calls, rows in self.run(
            "SELECT query, calls, rows FROM pg_stat_statements JOIN pg_database d ON d.oid = dbid "
            "WHERE datname = %s", "postgres", database,
        ):
            its = reader.read(text)
            if its is None or len(its) != 1 or CONSTRAINT.search(text):
                continue
            one = its[0]
            if one.kind == "fetch":
                said.rows_read += rows
                fetched[one.cursor] += rows
            if one.kind not in ("select", "copy") or not one.on_table:
                continue
            said.selects_told += calls
            said.rows_read += rows
            said.plain += calls * one.plain
            if HIDDEN in text:
                said.seen += calls
                said.seen_rows += rows
                said.seen_plain += calls * one.plain
            if one.cursor:
                counts = declared.setdefault(one.cursor, [0, 0])
                counts[0] += calls
                counts[1] += calls * (HIDDEN in text)
        for cursor, rows in fetched.items():
            calls, seen = declared.get(cursor, [1, 0])
            said.seen_rows += round(rows * seen / calls)

    def _logged(self, database: str, reader: Reader, said: Said) -> None:
        lives: dict[tuple[int, str], Life] = {}
        for line in self._lines(database):
            key = (line["pid"], line["vxid"])
            life = lives.setdefault(key, Life())
            if line["error_severity"] in ("ERROR", "FATAL"):
                life.fails()
                continue
            found = RAN.match(line["message"])
            if line["error_severity"] != "LOG" or not found or found["fetch"]:
                continue
            if found["name"] and OWN_NAME.match(found["name"]):
                continue
            said.logged += 1
            its = reader.read(found["text"])
            if its is None:
                said.unparsed[found["text"][:200]] += 1
                continue
            for one in its:
                if one.kind == "execute":
                    text = line.get("detail", "").removeprefix("prepare: ")
                    one = reader.prepared(text) or one
                life.runs(one)
        for life in lives.values():
            life.count(said)

    def _lines(self, database: str) -> Iterator[dict[str, Any]]:
        with open(self.log, encoding="utf-8", errors="replace") as file:
            file.seek(self.at)
            for text in file:
                line = json.loads(text)
                if line.get("dbname") != database or line.get("backend_type") != "client backend":
                    continue
                if line.get("application_name") not in ("oracle", "zanteyard") and "vxid" in line:
                    yield line


CLIENTS = """
SELECT count(*) FROM pg_stat_activity WHERE datname = %s AND backend_type = 'client backend'
AND application_name NOT IN ('oracle', 'zanteyard')
"""
FUNCTIONS = """
SELECT proname FROM pg_proc p JOIN pg_namespace n ON n.oid = pronamespace
WHERE nspname !~ '^pg_' AND nspname <> 'information_schema' AND NOT EXISTS (SELECT FROM pg_depend
    WHERE classid = 'pg_proc'::regclass AND objid = p.oid AND deptype = 'e')
"""
KEYS = """
SELECT format('%I.%I', nspname, relname), attname::text FROM pg_index
JOIN pg_class c ON c.oid = indrelid JOIN pg_namespace n ON n.oid = relnamespace
JOIN pg_attribute a ON attrelid = indrelid AND attnum = ANY(indkey)
WHERE indisprimary AND nspname NOT IN ('pg_catalog', 'pg_toast') ORDER BY attnum
"""
# The server's own, deferred.
CONSTRAINT = re.compile(r"^SELECT (?:1|\$\d+) FROM ONLY .* FOR KEY SHARE OF x$")
HIDDEN = "zanteyard"  # a word in each text with hidden columns
RAN = re.compile(
    r"(?:statement|execute (?P<fetch>fetch from )?(?P<name>[^:]*)): (?P<text>.*)", re.DOTALL
)
CHANGE = re.compile(
    r"table (?P<table>.+?): (?:INSERT|UPDATE|DELETE): (?P<values>.*)", re.DOTALL
)
VALUE = re.compile(r"(\"(?:[^\"]|\"\")+\"|[^\s\[]+)\[((?:[^\[\]]|\[\])+)\]:('(?:[^']|'')*'|\S+)\s?")


def _values(text: str) -> Iterator[tuple[str, str]]:
    for name, _, value in VALUE.findall(text):
        yield name.strip('"'), value


class Life:
    """The transactions of one of the server's virtual numbers: one, or several if they are in one
    text."""

    def __init__(self) -> None:
        self.done: list[tuple[str, list[Statement]]] = []
        self.its: list[Statement] = []
        self.failed = False

    def runs(self, one: Statement) -> None:
        if one.name == "rollback_to":
            self.failed = False
        if one.ends:
            self.done.append(("rollback" if self.failed else one.ends, self.its))
            self.its, self.failed = [], False
        else:
            self.its.append(one)

    def fails(self) -> None:
        """The last statement ended with an error: perhaps a COMMIT."""
        if not self.its and self.done and self.done[-1][0] == "commit":
            self.done[-1] = ("rollback", self.done[-1][1])
            return
        self.failed = True
        if self.its:
            self.its[-1] = Statement("failed", self.its[-1].on_table)

    def count(self, said: Said) -> None:
        for ends, its in [*self.done, ("rollback" if self.failed else "commit", self.its)]:
            on_table = [one for one in its if one.on_table]
            selects = sum(one.kind in ("select", "copy") for one in on_table)
            writes = sum(one.kind == "write" for one in on_table)
            if not on_table:
                said.apart += bool(its)
            elif ends == "commit":
                said.transactions += 1
                said.selects += selects
                said.writes += writes
            else:
                said.rolled_back += 1
                said.selects_rolled_back += selects
                said.writes_rolled_back += writes
