"""The statements of PostgreSQL's own documentation, with and without the proxy.

    python3 bench/check/documented_statements.py [--folder HTML] [--page NAME ..] [--show N]

Each page's examples that look like SQL are run in order, by psql, on two servers with the same
initial state, one of them behind the proxy, which audits. psql has to print the same: answers,
errors and their positions. Examples whose output differs between two servers anyway (processes,
times, identifiers, random values) are skipped and counted. The exit status is 1 if a page differs.

The documentation is in Debian's package postgresql-doc-15, which no other test needs.
"""

import argparse
import glob
import html
import os
import re
import sys
import tempfile
from collections.abc import Iterator

TOP = os.path.join(os.path.dirname(os.path.abspath(__file__)), "../..")
sys.path[:0] = [os.path.join(TOP, "python"), os.path.join(TOP, "python/tests")]

from proxy_pair import Pair, proxy_program

FOLDER = "/usr/share/doc/postgresql-doc-15/html"
EXAMPLE = re.compile(r'<pre class="(?:programlisting|screen)">(.*?)</pre>', re.S)
WORDS = (
    "ALTER ANALYZE BEGIN CALL CLOSE COMMENT COMMIT COPY CREATE DEALLOCATE DECLARE DELETE DISCARD DO "
    "DROP END EXECUTE EXPLAIN FETCH GRANT INSERT LISTEN LOCK MERGE MOVE NOTIFY PREPARE REFRESH "
    "REINDEX RELEASE RESET REVOKE ROLLBACK SAVEPOINT SELECT SET SHOW START TABLE TRUNCATE UNLISTEN "
    "UPDATE VALUES WITH"
).split()
BEGINS = re.compile(rf"\s*(?:{'|'.join(WORDS)})\b", re.I)
# Statements whose output differs between servers, that reach beyond the database, or that end the
# connection.
OTHERWISE = re.compile(
    r"pg_sleep|random|now\(|current_(?:time|date|timestamp)|localtime|clock_timestamp|timeofday|age\(|"
    r"backend_pid|pg_stat|pg_locks|txid|xact_id|xmin|xmax|ctid|snapshot|lsn|wal|pg_control|inet_|"
    r"regclass::oid|pg_relation|size|EXPLAIN|ANALYZE|pg_terminate|pg_cancel|pg_reload|SYSTEM|SUBSCRIPTION|"
    r"PUBLICATION|TABLESPACE|DATABASE|dblink|PROGRAM|lo_|uuid|pg_ls|pg_read|statement_timeout|"
    r"current_setting|version\(|oid|\bpid\b|notify|listen|yesterday|today|tomorrow|pg_advisory|"
    r"EVENT TRIGGER|log_|gen_|prepared transaction|TABLESAMPLE|backup|relpages|replication_slots",
    re.I,
)


def examples(path: str) -> Iterator[str]:
    """The statements of a page, one example after another."""
    with open(path, encoding="utf-8") as file:
        text = file.read()
    for found in EXAMPLE.findall(text):
        plain = html.unescape(re.sub(r"<[^>]*>", "", found)).replace("\xa0", " ")
        lines = [re.sub(r"^\w*[=-][>#] ", "", line) for line in plain.splitlines()]
        whole = "\n".join(lines).strip()
        if BEGINS.match(whole) and ";" in whole and "..." not in whole and "\\" not in whole:
            yield whole[: whole.rindex(";") + 1]


def script_of(path: str) -> tuple[str, int, int]:
    """psql's input for a page, how many examples are in it, and how many were skipped."""
    kept: list[str] = []
    left = 0
    for one in examples(path):
        if OTHERWISE.search(one) or one.count("'") % 2:
            left += 1
        else:
            kept.append(one)
    # Each is run twice: the second time the plan has been tried, and its hidden columns are used.
    body = "\n".join(f"{one}\nSELECT pg_sleep(0.02);\n{one}" for one in kept)
    return f"SET client_min_messages = notice;\n{body}\nROLLBACK;\n", len(kept), left


def main() -> int:
    parser = argparse.ArgumentParser(description=__doc__.splitlines()[0])
    parser.add_argument("--folder", default=FOLDER, help="where the documentation's HTML is")
    parser.add_argument("--page", nargs="+", help="only these pages, such as tutorial-join")
    parser.add_argument("--show", type=int, default=3, help="how many different lines of a page to show (3)")
    asked = parser.parse_args()
    pages = sorted(glob.glob(os.path.join(asked.folder, "*.html")))
    if asked.page:
        pages = [each for each in pages if os.path.basename(each)[:-5] in asked.page]
    if not pages:
        raise SystemExit(f"no pages in {asked.folder}: they are Debian's package postgresql-doc-15")
    with tempfile.TemporaryDirectory() as folder:
        os.chmod(folder, 0o755)
        program = proxy_program(folder)
        if program is None:
            raise SystemExit("Go or its libraries are missing")
        pair = Pair()
        pair.make_folder()
        differing = ran = passed_over = errors = lines = 0
        try:
            pair.start(program)
            pair.sql("postgres", "CREATE ROLE reader LOGIN SUPERUSER;")
            for path in pages:
                script, count, left = script_of(path)
                passed_over += left
                if not count:
                    continue
                ran += count
                name = os.path.join(pair.folder, "script.sql")
                with open(name, "w", encoding="utf-8") as file:
                    file.write(script)
                os.chmod(name, 0o644)
                call = ["psql", "-X", "-q", "-e", "-v", "VERBOSITY=verbose", "-f", name]
                one, other = (text.splitlines() for text in pair.run("reader", call))
                one, other = ([re.sub(r"LOCATION:.*", "", line) for line in each] for each in (one, other))
                lines += len(one)
                errors += sum("ERROR:" in line for line in one)
                if one != other:
                    differing += 1
                    print(f"{os.path.basename(path)} differs:")
                    apart = [both for both in zip(one, other) if both[0] != both[1]]
                    for direct, proxied in apart[: asked.show]:
                        print(f"  direct  {direct[:150]}\n  proxied {proxied[:150]}")
                    print(f"  {len(one)} and {len(other)} lines", flush=True)
            assert pair.proxy
            read = sum(pair.proxy.reads_by_user().values())
        finally:
            pair.stop()
    print(f"{ran} examples of {len(pages)} pages, each twice; {passed_over} passed over; {lines} lines "
          f"printed, {errors} of them errors; {differing} pages differ")
    print(f"{read} rows read, of what the audit still had at the end")
    return int(differing > 0 or not read)


if __name__ == "__main__":
    sys.exit(main())
