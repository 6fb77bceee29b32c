"""What has to be set up on a server, and where to do that: by hand, or in the console of a hosting
provider.

What is said about providers is from their documentation, and wasn't tried. Menus change, so look
for the names of the settings.
"""

from collections.abc import Iterable, Mapping
from dataclasses import dataclass

WAL_LEVEL, SLOTS, SENDERS, REPLICATION, WALINSPECT, KEEP, PLUGINS, ROLE = (
    "wal_level", "slots", "senders", "replication", "walinspect", "keep", "plugins", "role"
)
AUDITOR = "zanteyard"  # the least role's name, as a proposal


@dataclass(frozen=True)
class Host:
    """A provider that runs servers, and how each thing is set there. {user} stands for the role
    in SQL syntax. Statements end with a semicolon, and comments begin with `--`, so that a line can
    be given to psql as it is."""

    name: str
    remedies: Mapping[str, str]

    def remedy(self, what: str, user: str) -> str:
        return self.remedies.get(what, OWN.remedies[what]).replace("{user}", user)


OWN = Host(
    "",
    {
        WAL_LEVEL: "ALTER SYSTEM SET wal_level = 'logical'; -- then restart the server",
        SLOTS: "ALTER SYSTEM SET max_replication_slots = 10; -- then restart the server",
        SENDERS: "ALTER SYSTEM SET max_wal_senders = 10; -- then restart the server",
        REPLICATION: "ALTER ROLE {user} REPLICATION; -- as a superuser",
        WALINSPECT: "CREATE EXTENSION pg_walinspect SCHEMA pg_catalog; "
        "GRANT EXECUTE ON FUNCTION pg_get_wal_record_info(pg_lsn) TO {user}; -- as a superuser",
        ROLE: "CREATE ROLE {user} LOGIN REPLICATION; -- then, in psql: \\password {user}",
        KEEP: "ALTER SYSTEM SET max_slot_wal_keep_size = '4GB'; SELECT pg_reload_conf();",
        PLUGINS: "ALTER SYSTEM SET output_plugin_libraries = {trusted}; SELECT pg_reload_conf(); "
        "-- every role with the right to replicate may then use it; with a hosting provider it is "
        "the parameter output_plugin_libraries, if offered",
    },
)
_AMAZON = {
    SLOTS: "in the parameter group: max_replication_slots = 10; then reboot",
    SENDERS: "in the parameter group: max_wal_senders = 10; then reboot",
    REPLICATION: "GRANT rds_replication TO {user}; -- as the master user",
    ROLE: "CREATE ROLE {user} LOGIN; GRANT rds_replication TO {user}; -- then, in psql: "
    "\\password {user}",
    WALINSPECT: "CREATE EXTENSION pg_walinspect; -- as the master user, if this version offers it",
    KEEP: "in the parameter group: max_slot_wal_keep_size, in MB",
}
RDS = Host(
    "Amazon RDS",
    {
        WAL_LEVEL: "in the instance's DB parameter group (not the default one, which can't be "
        "changed): rds.logical_replication = 1; then reboot the instance",
        **_AMAZON,
    },
)
AURORA = Host(
    "Amazon Aurora",
    {
        WAL_LEVEL: "in the DB cluster parameter group (not the default one, which can't be "
        "changed): rds.logical_replication = 1; then reboot the writer instance",
        **_AMAZON,
    },
)
CLOUD_SQL = Host(
    "Google Cloud SQL",
    {
        WAL_LEVEL: "under Edit, Flags: cloudsql.logical_decoding = on; the instance restarts",
        SLOTS: "under Edit, Flags: max_replication_slots = 10; the instance restarts",
        SENDERS: "under Edit, Flags: max_wal_senders = 10; the instance restarts",
        REPLICATION: "ALTER USER {user} WITH REPLICATION; -- as the user postgres",
        WALINSPECT: "CREATE EXTENSION pg_walinspect; -- as the user postgres, if it is offered",
        KEEP: "under Edit, Flags: max_slot_wal_keep_size, if it is offered",
    },
)
ALLOYDB = Host(
    "Google AlloyDB",
    {
        WAL_LEVEL: "in the instance's flags: alloydb.logical_decoding = on; the instance restarts",
        REPLICATION: "ALTER USER {user} WITH REPLICATION; -- as the user postgres",
    },
)
AZURE = Host(
    "Azure Database for PostgreSQL, Flexible Server",
    {
        WAL_LEVEL: "under Settings, Server parameters: wal_level = LOGICAL; save and restart",
        SLOTS: "under Settings, Server parameters: max_replication_slots = 10; save and restart",
        SENDERS: "under Settings, Server parameters: max_wal_senders = 10; save and restart",
        REPLICATION: "ALTER ROLE {user} WITH REPLICATION; -- as the server's administrator",
        WALINSPECT: "under Settings, Server parameters: add pg_walinspect to azure.extensions, if "
        "it is offered; then CREATE EXTENSION pg_walinspect",
        KEEP: "under Settings, Server parameters: max_slot_wal_keep_size",
    },
)
SUPABASE = Host(
    "Supabase",
    {
        ROLE: "use the role postgres: it may replicate, and is no superuser",
        WAL_LEVEL: "it is logical in every project by default: ask Supabase",
        REPLICATION: "use the role postgres, which may replicate; connect directly or through the "
        "pooler in session mode: its transaction mode has no replication",
    },
)
NEON = Host(
    "Neon",
    {
        ROLE: "create a role in the console: it may replicate, and is no superuser",
        WAL_LEVEL: "in the project's Settings, Logical Replication: Enable (it can't be undone)",
        REPLICATION: "use a role that was created in the console or by its API, and the endpoint "
        "without -pooler in its name",
        KEEP: "it can't be set on Neon, which removes slots that nobody reads",
    },
)
HEROKU = Host(
    "Heroku Postgres",
    {
        ROLE: "as far as we know, no Heroku role may replicate",
        WAL_LEVEL: "as far as we know, Heroku offers no logical replication: ask them, or audit a "
        "copy of the application on a server of your own",
        REPLICATION: "as far as we know, no Heroku role may replicate",
    },
)
DOCKER_NOTE = (
    "in a container: docker run .. postgres -c wal_level=logical, or `command: postgres -c "
    "wal_level=logical` in compose.yaml"
)
NAMES = (
    (".neon.tech", NEON),
    (".supabase.co", SUPABASE),
    (".supabase.com", SUPABASE),
    (".postgres.database.azure.com", AZURE),
    (".compute-1.amazonaws.com", HEROKU),
    (".rds.amazonaws.com", RDS),
    (".rds.amazonaws.com.cn", RDS),
)


def host_of(name: str, settings: Iterable[str]) -> Host:
    """The provider, from the server's name and from settings that only a provider has."""
    prefixes = {setting.split(".")[0] for setting in settings if "." in setting}
    if "alloydb" in prefixes:
        return ALLOYDB
    if "cloudsql" in prefixes:
        return CLOUD_SQL
    if "rds" in prefixes or ".rds.amazonaws.com" in name:
        is_aurora = "aurora" in prefixes or ".cluster-" in name
        return AURORA if is_aurora else RDS
    if "azure" in prefixes:
        return AZURE
    if "neon" in prefixes:
        return NEON
    return next((host for end, host in NAMES if name.lower().endswith(end)), OWN)
