"""What a server reports about itself, as far as an audit needs it."""

import secrets
from dataclasses import dataclass

from ._database import Database, DatabaseError
from ._hosts import (
    AUDITOR, KEEP, PLUGINS, REPLICATION, ROLE, SENDERS, SLOTS, WAL_LEVEL, WALINSPECT, Host, host_of
)
from ._schema import quoted

OLDEST = 130000  # PostgreSQL 13
PLUGIN, SHIPPED = "wal2json", "test_decoding"  # logical decoding plugins that the proxy can use
INSTALL = f"install it on the server (Debian: postgresql-NN-{PLUGIN})"
TRUSTED = "output_plugin_libraries"  # the server's list of allowed plugins
UNUSED = "public.zanteyard_fence"  # which versions up to 0.1.0 created
BEHIND_SAVEPOINTS = "the writer of a row may be unknown if it wrote after a savepoint"
OPEN_SCHEMA = "the schema of the extension pg_walinspect doesn't belong to a superuser"
NO_PLUGIN = ("58P01", "42704")  # undefined file, undefined object
REFUSED = "42501"  # insufficient privilege


@dataclass(frozen=True)
class Finding:
    """The result of one check. `is_needed` tells whether the audit can't begin without it. The
    remedy is empty if there is nothing to do."""

    is_right: bool
    is_needed: bool
    sentence: str
    remedy: str = ""


@dataclass(frozen=True)
class Server:
    """Which server it is."""

    version: str
    number: int
    database: str
    user: str
    host: Host
    is_superuser: bool = False


def server_of(database: Database, host_name: str) -> Server:
    """Asks the server what it is. Raises DatabaseError."""
    ((version, number, name, user, is_superuser),) = database.run(
        "SELECT pg_catalog.current_setting('server_version'), "
        "pg_catalog.current_setting('server_version_num')::pg_catalog.int4, "
        "pg_catalog.current_database(), current_user, "
        "(SELECT rolsuper FROM pg_catalog.pg_roles WHERE rolname = current_user)"
    )
    names = database.run("SELECT name FROM pg_catalog.pg_settings WHERE name ~ '[.]'")
    settings = [row[0] for row in names]
    host = host_of(host_name, settings)
    return Server(version.split()[0], number, name, user, host, bool(is_superuser))


def least_role(server: Server) -> list[str]:
    """How to make a role that may do what an audit needs, and nothing else."""
    made = [server.host.remedy(ROLE, AUDITOR)]
    if AUDITOR not in made[0]:
        return made
    database = quoted(server.database)
    made.append(f"GRANT CONNECT ON DATABASE {database} TO {AUDITOR}; -- if PUBLIC may not connect")
    if server.number >= 150000:
        called = f"GRANT EXECUTE ON FUNCTION pg_get_wal_record_info(pg_lsn) TO {AUDITOR}"
        made.append(f"{called}; -- if the extension pg_walinspect is there")
    quiet = f"ALTER ROLE {AUDITOR} SET log_min_messages = error"
    made.append(f"{quiet}; -- as a superuser, so that rows of tables without a key are counted")
    return made


def unneeded(server: Server) -> str:
    """What to say of a role that may do more than an audit needs; empty if there is nothing."""
    if not server.is_superuser:
        return ""
    return f"the role {server.user} is a superuser, which an audit doesn't need"


def findings(database: Database, server: Server) -> list[Finding]:
    """What the server has or lacks for an audit. Raises DatabaseError."""
    found = [_version(server), _wal_level(database, server)]
    found += [_senders(database, server), _slots(database, server)]
    found.append(_replication(database, server))
    if all(one.is_right for one in found):
        found.append(_plugin(database, server))
    else:
        found += _plugin_untried(database, server)
    found += [_walinspect(database, server), _keep(database, server)]
    return found + _rules(database) + _unused(database)


def _version(server: Server) -> Finding:
    is_right = server.number >= OLDEST
    told = f"PostgreSQL {server.version}"
    return Finding(
        is_right, True, told if is_right else f"{told}: the audit needs version 13 or later"
    )


def _wal_level(database: Database, server: Server) -> Finding:
    level = database.one("SELECT pg_catalog.current_setting('wal_level')")
    if level == "logical":
        return Finding(True, True, "wal_level is logical")
    remedy = server.host.remedy(WAL_LEVEL, quoted(server.user))
    return Finding(False, True, f"wal_level is {level}, but must be logical", remedy)


def _slots(database: Database, server: Server) -> Finding:
    ((most, used),) = database.run(
        "SELECT pg_catalog.current_setting('max_replication_slots')::pg_catalog.int4, "
        "(SELECT pg_catalog.count(*) FROM pg_catalog.pg_replication_slots)"
    )
    return _room(server, "max_replication_slots", most, used, SLOTS, "slots")


def _senders(database: Database, server: Server) -> Finding:
    ((most, used),) = database.run(
        "SELECT pg_catalog.current_setting('max_wal_senders')::pg_catalog.int4, "
        "(SELECT pg_catalog.count(*) FROM pg_catalog.pg_stat_replication)"
    )
    return _room(server, "max_wal_senders", most, used, SENDERS, "senders")


def _room(server: Server, setting: str, most: int, used: int, what: str, name: str) -> Finding:
    told = f"{setting} is {most}; {used} {name} are in use"
    if used < most:
        return Finding(True, True, told)
    remedy = server.host.remedy(what, quoted(server.user))
    return Finding(False, True, f"{told}, and the audit needs one more", remedy)


def _replication(database: Database, server: Server) -> Finding:
    may = database.one(
        "SELECT rolreplication OR rolsuper FROM pg_catalog.pg_roles WHERE rolname = current_user"
    )
    if not may and database.one(
        "SELECT 1 FROM pg_catalog.pg_roles WHERE rolname = 'rds_replication'"
    ):
        may = database.one(
            "SELECT pg_catalog.pg_has_role(current_user, 'rds_replication', 'member')"
        )
    if may:
        return Finding(True, True, f"the role {server.user} has the right to replicate")
    remedy = server.host.remedy(REPLICATION, quoted(server.user))
    return Finding(False, True, f"the role {server.user} lacks the right to replicate", remedy)


def _plugin(database: Database, server: Server) -> Finding:
    """Tries the plugin with a slot that disappears at once, or with this connection."""
    try:
        database.run("SET statement_timeout = '10s'")
        _probe(database, PLUGIN)
        return Finding(True, True, f"{PLUGIN} is installed, and a slot for it can be created")
    except DatabaseError as error:
        if error.code in NO_PLUGIN:
            told = f"{PLUGIN} isn't installed"
            remedy = INSTALL
        elif error.code == REFUSED and (trusted := _trusted(database)) is not None:
            told = f"{PLUGIN} isn't in the server's {TRUSTED}"
            remedy = _trust_remedy(server, trusted)
        else:
            return Finding(False, True, f"can't create a replication slot: {error}")
        try:
            _probe(database, SHIPPED)
        except DatabaseError as other:
            return Finding(
                False, True, f"{told}, and {SHIPPED} can't be used either: {other}", remedy
            )
        without = f"{SHIPPED} is used instead; {BEHIND_SAVEPOINTS}"
        return Finding(False, False, f"{told}: {without}", remedy)
    finally:
        database.run("RESET statement_timeout")


def _plugin_untried(database: Database, server: Server) -> list[Finding]:
    """What is known about the plugin while no slot can be created, so that it can be fixed together
    with the rest."""
    without = f"otherwise {SHIPPED} is used; {BEHIND_SAVEPOINTS}"
    if _is_missing(database):
        return [Finding(False, False, f"{PLUGIN} isn't installed: {without}", INSTALL)]
    trusted = _trusted(database)
    names = database.one(f"SELECT pg_catalog.current_setting('{TRUSTED}', true)") or ""
    if trusted is None or PLUGIN in (name.strip(" \"") for name in names.split(",")):
        return []
    told = f"{PLUGIN} isn't in the server's {TRUSTED}"
    return [Finding(False, False, f"{told}: {without}", _trust_remedy(server, trusted))]


def _is_missing(database: Database) -> bool:
    """Whether the plugin is known to be missing: only a superuser can try to load it."""
    try:
        database.run(f"LOAD '{PLUGIN}'")
    except DatabaseError as error:
        return error.code in NO_PLUGIN
    return False


def _trust_remedy(server: Server, trusted: str) -> str:
    return server.host.remedy(PLUGINS, quoted(server.user)).replace("{trusted}", trusted)


def _probe(database: Database, plugin: str) -> None:
    slot = f"zanteyard_probe_{secrets.token_hex(8)}"  # others may look at the same moment
    database.run(
        "SELECT pg_catalog.pg_create_logical_replication_slot(%s, %s, true)", (slot, plugin)
    )
    database.run("SELECT pg_catalog.pg_drop_replication_slot(%s)", (slot,))


def _trusted(database: Database) -> str | None:
    """The server's list of allowed plugins, with ours added; None if it has no such list."""
    its: str | None = database.one(f"SELECT pg_catalog.current_setting('{TRUSTED}', true)")
    return None if its is None else f"{its}, {PLUGIN}" if its else PLUGIN


def _walinspect(database: Database, server: Server) -> Finding:
    told = "pg_walinspect"
    without = f"without it, {BEHIND_SAVEPOINTS}"
    remedy = server.host.remedy(WALINSPECT, quoted(server.user))
    if server.number < 150000:
        return Finding(False, False, f"{told} needs PostgreSQL 15; {without}")
    rows = database.run(
        "SELECT e.extname IS NOT NULL FROM pg_catalog.pg_available_extensions a "
        "LEFT JOIN pg_catalog.pg_extension e ON e.extname = a.name WHERE a.name = 'pg_walinspect'"
    )
    if not rows:
        return Finding(False, False, f"this server doesn't offer {told}; {without}")
    if not rows[0][0]:
        return Finding(False, False, f"the extension {told} isn't created; {without}", remedy)
    reason = _not_inspecting(database, server)
    if reason == OPEN_SCHEMA:
        remedy = "ALTER EXTENSION pg_walinspect SET SCHEMA pg_catalog; -- as a superuser"
    if reason:
        return Finding(False, False, f"{reason}; {without}", remedy)
    return Finding(True, False, f"{told} exists, and {server.user} may call it")


def _not_inspecting(database: Database, server: Server) -> str:
    """Why the proxy won't call the function of pg_walinspect; empty if it will. The function is
    found by its extension. It is in C, which only a superuser can make, and belongs to one, as the
    extension and its schema do, or to the audit's own role: who owns the schema could put another
    one in its place."""
    rows = database.run(
        "SELECT (f.rolsuper OR f.rolname = current_user) AND (o.rolsuper OR o.rolname = "
        "current_user) AND l.lanname = 'c' AND p.probin = '$libdir/pg_walinspect', "
        "pg_catalog.has_function_privilege(p.oid, 'EXECUTE') "
        "AND pg_catalog.has_schema_privilege(p.pronamespace, 'USAGE'), "
        "(s.rolsuper OR s.rolname = current_user) "
        "FROM pg_catalog.pg_extension e JOIN pg_catalog.pg_depend d ON d.refobjid = e.oid "
        "AND d.refclassid = 'pg_catalog.pg_extension'::pg_catalog.regclass "
        "AND d.classid = 'pg_catalog.pg_proc'::pg_catalog.regclass AND d.deptype = 'e' "
        "JOIN pg_catalog.pg_proc p ON p.oid = d.objid "
        "JOIN pg_catalog.pg_language l ON l.oid = p.prolang "
        "JOIN pg_catalog.pg_roles f ON f.oid = p.proowner "
        "JOIN pg_catalog.pg_roles o ON o.oid = e.extowner "
        "JOIN pg_catalog.pg_namespace n ON n.oid = p.pronamespace "
        "JOIN pg_catalog.pg_database b ON b.datname = pg_catalog.current_database() "
        "JOIN pg_catalog.pg_roles s ON s.oid = CASE WHEN n.nspowner = (SELECT w.oid FROM "
        "pg_catalog.pg_roles w WHERE w.rolname = 'pg_database_owner') THEN b.datdba "
        "ELSE n.nspowner END "
        "WHERE e.extname = 'pg_walinspect' AND p.proname = 'pg_get_wal_record_info' "
        "AND p.pronargs = 1 AND p.proargtypes[0] = 'pg_catalog.pg_lsn'::pg_catalog.regtype"
    )
    if len(rows) != 1 or not rows[0][0]:
        return "the extension pg_walinspect or its function doesn't belong to a superuser"
    if not rows[0][2]:
        return OPEN_SCHEMA
    return "" if rows[0][1] else f"the role {server.user} may not call pg_walinspect"


def _keep(database: Database, server: Server) -> Finding:
    size: str | None = database.one(
        "SELECT pg_catalog.current_setting('max_slot_wal_keep_size', true)"
    )
    if size not in (None, "-1"):
        return Finding(True, False, f"max_slot_wal_keep_size is {size}")
    told = (
        "max_slot_wal_keep_size has no limit: the server keeps WAL for an audit that can't keep "
        "up. The audit's slot is temporary and disappears with its connection"
    )
    return Finding(False, False, told, server.host.remedy(KEEP, quoted(server.user)))


def _rules(database: Database) -> list[Finding]:
    """The server's rules by which it would let the proxy in instead of a client. Only a superuser
    may read them."""
    try:
        rows = database.run(
            "SELECT line_number, type, pg_catalog.array_to_string(database, ','), "
            "pg_catalog.array_to_string(user_name, ','), auth_method "
            "FROM pg_catalog.pg_hba_file_rules "
            "WHERE auth_method IN ('trust', 'peer', 'ident', 'cert') "
            "AND 'replication' <> ALL(database) "
            "AND (pg_catalog.current_database() = ANY(database) OR database[1] IN "
            "('all', 'sameuser', 'samerole', 'samegroup')) ORDER BY line_number"
        )
    except DatabaseError:
        return []
    if not rows:
        return []
    told = "; ".join(f"line {number}: {' '.join(its)}" for number, *its in rows)
    return [
        Finding(
            False, False, f"rules of pg_hba.conf ask a client for no credential ({told}): if one "
            "of them lets the proxy in, the proxy refuses the client",
            "give roles passwords, and these rules the method scram-sha-256; or start the proxy "
            "with --trust-clients (docs/SECURITY.md)",
        )
    ]


def _unused(database: Database) -> list[Finding]:
    """A table of an earlier version."""
    if database.one("SELECT pg_catalog.to_regclass(%s)", (UNUSED,)) is None:
        return []
    told = f"the table {UNUSED} was made for an earlier version, and nothing uses it any more"
    return [Finding(False, False, told, f"DROP TABLE {UNUSED};")]
