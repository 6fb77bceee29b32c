"""What an audit sees of a database's tables, and what each of them lacks."""

from collections.abc import Iterable, Iterator, Sequence
from dataclasses import dataclass, replace
from typing import Any

from ._database import Database
from ._patterns import Name, TablePatterns

# Types of primary key columns whose values the proxy can compare; also enums, and domains over
# these.
COMPARED = frozenset(
    "bool bytea name int2 int4 int8 oid text varchar bpchar float4 float8 numeric uuid date time "
    "timestamp timestamptz cidr inet macaddr bit varbit".split()
)
TABLES = """
SELECT c.oid, n.nspname, c.relname, c.relkind, c.relpersistence, c.relreplident, c.relispartition,
       coalesce(m.nspname, n.nspname), coalesce(r.relname, c.relname),
       i.indexrelid IS NOT NULL, coalesce(i.indimmediate, true), coalesce(i.indisreplident, false)
  FROM pg_catalog.pg_class c
  JOIN pg_catalog.pg_namespace n ON n.oid = c.relnamespace
  LEFT JOIN pg_catalog.pg_index i ON i.indrelid = c.oid AND i.indisprimary
  LEFT JOIN pg_catalog.pg_class r
    ON c.relispartition AND r.oid = pg_catalog.pg_partition_root(c.oid)
  LEFT JOIN pg_catalog.pg_namespace m ON m.oid = r.relnamespace
 WHERE c.relkind IN ('r', 'p', 'f', 'v', 'm') AND c.relpersistence <> 't'
   AND n.nspname NOT IN ('pg_catalog', 'information_schema') AND n.nspname !~ '^pg_(toast|temp)'
   AND NOT EXISTS (SELECT FROM pg_catalog.pg_depend d
                   WHERE d.classid = 'pg_catalog.pg_class'::pg_catalog.regclass
                   AND d.objid = c.oid AND d.deptype = 'e')
 ORDER BY n.nspname, c.relname
"""
COLUMNS = """
SELECT i.indrelid, a.attname, pg_catalog.format_type(a.atttypid, a.atttypmod), t.typtype,
       b.typname, b.typtype, coalesce(l.collisdeterministic, true)
  FROM pg_catalog.pg_index i
 CROSS JOIN pg_catalog.unnest(i.indkey) WITH ORDINALITY k(number, place)
  JOIN pg_catalog.pg_attribute a ON a.attrelid = i.indrelid AND a.attnum = k.number
  JOIN pg_catalog.pg_type t ON t.oid = a.atttypid
  JOIN pg_catalog.pg_type b ON b.oid = CASE t.typtype WHEN 'd' THEN t.typbasetype ELSE t.oid END
  LEFT JOIN pg_catalog.pg_collation l ON l.oid = a.attcollation
 WHERE i.indisprimary
 ORDER BY i.indrelid, k.place
"""
# Of each table without a primary key, a unique index of columns that are never NULL: its name, its
# columns, and whether it can become the key as it is. One that belongs to a constraint can't.
UNIQUE = """
SELECT DISTINCT ON (i.indrelid) i.indrelid, x.relname,
       (SELECT pg_catalog.string_agg(pg_catalog.quote_ident(a.attname), ', ' ORDER BY k.place)
          FROM pg_catalog.unnest(i.indkey) WITH ORDINALITY k(number, place)
          JOIN pg_catalog.pg_attribute a ON a.attrelid = i.indrelid AND a.attnum = k.number
         WHERE k.place <= i.indnkeyatts),
       EXISTS (SELECT FROM pg_catalog.pg_constraint o WHERE o.conindid = i.indexrelid
               AND o.contype IN ('u', 'x'))
       OR 0 <> ANY (i.indoption::pg_catalog.int2[]) OR x.relkind <> 'i'
       OR EXISTS (SELECT FROM pg_catalog.pg_opclass o
                  WHERE o.oid = ANY (i.indclass::pg_catalog.oid[]) AND NOT o.opcdefault) AS is_bound
  FROM pg_catalog.pg_index i
  JOIN pg_catalog.pg_class x ON x.oid = i.indexrelid
  JOIN pg_catalog.pg_class c ON c.oid = i.indrelid
 WHERE i.indisunique AND i.indisvalid AND i.indimmediate AND i.indpred IS NULL
   AND i.indexprs IS NULL AND NOT c.relispartition
   AND NOT EXISTS (SELECT FROM pg_catalog.pg_index p
                   WHERE p.indrelid = i.indrelid AND p.indisprimary)
   AND NOT EXISTS (SELECT FROM pg_catalog.unnest(i.indkey) WITH ORDINALITY k(number, place)
                   LEFT JOIN pg_catalog.pg_attribute a
                     ON a.attrelid = i.indrelid AND a.attnum = k.number
                   WHERE k.place <= i.indnkeyatts AND a.attnotnull IS DISTINCT FROM true)
 ORDER BY i.indrelid, is_bound, i.indnkeyatts, i.indexrelid
"""
ENUM = "e"
UNKNOWN_KEY = "(..); -- the columns that identify a row"


@dataclass(frozen=True)
class Table:
    """One table or view. If it isn't seen, `reason` says why, and `remedy` what to do about it, if
    possible."""

    name: str  # in SQL syntax
    kind: str  # "table", "partition", "view" or "foreign table"
    reason: str = ""
    remedy: str = ""
    names: tuple[Name, ...] = ()  # its own, and its topmost table's

    @property
    def is_seen(self) -> bool:
        return not self.reason


def tables_of(database: Database) -> list[Table]:
    """All tables and views, except PostgreSQL's own, those of extensions, and temporary ones."""
    columns: dict[Any, list[Sequence[Any]]] = {}
    for oid, *its in database.run(COLUMNS):
        columns.setdefault(oid, []).append(its)
    unique = {oid: _key_by(*its) for oid, *its in database.run(UNIQUE)}
    found = (
        replace(
            _table(row, columns.get(row[0], []), unique.get(row[0], UNKNOWN_KEY)),
            names=(row[1:3], row[7:9]),
        )
        for row in database.run(TABLES)
    )
    return list(found)


def asked_of(tables: Sequence[Table], asked: TablePatterns) -> tuple[list[Table], list[str]]:
    """The tables that match, and the patterns that match none of all tables."""
    found = [table for table in tables if asked.have(table.names)]
    return found, asked.idle([name for table in tables for name in table.names])


def _key_by(index: str, columns: str, is_bound: bool) -> str:
    """How a unique index's columns become the primary key."""
    return f"({columns});" if is_bound else f"USING INDEX {quoted(index)};"


def _table(row: Sequence[Any], key: Sequence[Sequence[Any]], candidate: str) -> Table:
    _, schema, name, kind, persistence, identity, is_partition, _, _, *index = row
    full = f"{quoted(schema)}.{quoted(name)}"
    if kind in ("v", "m"):
        return Table(full, "view", "a view: rows read through it aren't seen")
    if kind == "f":
        return Table(full, "foreign table", "a foreign table: its rows are on another server")
    what = "partition" if is_partition else "table"
    if persistence == "u":
        told = "unlogged: its writes aren't in the server's log"
        return Table(full, what, told, f"ALTER TABLE {full} SET LOGGED;")
    has_key, is_immediate, is_identity = index
    if not has_key:
        told = "no primary key: its rows can't be identified"
        return Table(full, what, told, f"ALTER TABLE {full} ADD PRIMARY KEY {candidate}")
    if not is_immediate:
        told = "its primary key is deferrable: the server's log lacks the keys of deleted rows"
        return Table(full, what, told)
    if identity == "n" or (identity == "i" and not is_identity):
        told = (
            "its replica identity isn't its primary key: the server's log lacks the keys of "
            "deleted rows"
        )
        return Table(full, what, told, f"ALTER TABLE {full} REPLICA IDENTITY DEFAULT;")
    wrong = [*_not_compared(key)]
    return Table(full, what, "; ".join(wrong))


def _not_compared(key: Iterable[Sequence[Any]]) -> Iterator[str]:
    for name, told, _, base, base_kind, is_deterministic in key:
        if base not in COMPARED and base_kind != ENUM:
            yield f"primary key column {quoted(name)} has type {told}, which can't be compared"
        elif not is_deterministic:
            yield f"primary key column {quoted(name)} has a nondeterministic collation"


def quoted(name: str) -> str:
    """The name in SQL syntax."""
    is_plain = name.isascii() and name.islower() and name.replace("_", "a").isalnum()
    if is_plain and not name[0].isdigit():
        return name
    return '"' + name.replace('"', '""') + '"'


def summary(tables: Sequence[Table]) -> tuple[int, int, list[Table]]:
    """How many tables are seen, how many there are, and the tables and views that aren't seen."""
    real = [table for table in tables if table.kind != "view"]
    seen = sum(table.is_seen for table in real)
    return seen, len(real), [table for table in tables if not table.is_seen]
