#!/usr/bin/env bash
# Tests the collectors: types, style, and the tests, by pytest in parallel processes that start their own servers. It needs a built auditor
# (crates/cobra_audit/out/cobra_audit, or the one that COBRA_AUDIT names). If something isn't installed, one line says what is skipped. It
# takes about twenty minutes on four processors, and always ends: a test that hangs is killed after 2700 s, or ZANTEYARD_SECONDS, and fails.
#
#     python/test.sh [--install]      --install: as root, first installs the Debian packages that it needs
set -euo pipefail
seconds=${ZANTEYARD_SECONDS:-2700}
unset ZANTEYARD_SECONDS # commands would take it as their option --seconds
[ -z "${COBRA_AUDIT:-}" ] || COBRA_AUDIT=$(realpath "$COBRA_AUDIT")
cd "$(dirname "$0")"
if [ "${1:-}" = --install ]; then
    ../install_packages.sh
fi
if [ -n "${ZANTEYARD_POSTGRES_BIN:-}" ] && [ ! -x "$ZANTEYARD_POSTGRES_BIN/initdb" ]; then
    echo "ZANTEYARD_POSTGRES_BIN is $ZANTEYARD_POSTGRES_BIN, which has no initdb"
    exit 1
fi
audit=${COBRA_AUDIT:-../crates/cobra_audit/out/cobra_audit}
[ -x "$audit" ] || { echo "$audit is not built: README.md says how"; exit 1; }
python=python3
for each in /usr/bin/python3 python3; do
    if "$each" -c "import psycopg2" 2> /dev/null; then python=$each; break; fi
done

folder=$(mktemp -d)
chmod 711 "$folder" # if this runs as root, servers in it run as another user
export TMPDIR=$folder
clean() {
    [ -z "$types" ] || kill "$types" 2> /dev/null || true
    rm -rf "$folder"
}
types= # the process id of mypy
trap clean EXIT
trap 'exit 1' INT TERM
limited() { # runs a Python program for at most $1 seconds: then it prints each thread's stack
    local seconds=$1
    shift
    (ulimit -c 0; exec timeout --foreground -s ABRT -k 10 "$seconds" "$python" -X faulthandler "$@")
}

if command -v mypy > /dev/null; then # in parallel with the tests; its output comes after theirs
    MYPY_CACHE_DIR=$folder/mypy mypy > "$folder/types" 2>&1 &
    types=$!
else
    echo "skipped: mypy, which isn't installed (no type was checked)"
fi
failed=0
./style.sh "$python" || failed=1
# What failed of up to two modules next to others runs once more by itself: both results are printed.
limited $((seconds + 60)) run_tests.py --seconds "$seconds" --again 2 || failed=1
if [ -n "$types" ]; then
    wait "$types" || failed=1
    types=
    cat "$folder/types"
fi
[ "$failed" -eq 0 ] || exit 1
for each in "MariaDB mariadb_server mariadbd pymysql" "Redis redis_server redis_server redis"; do
    read -r name module program driver <<< "$each"
    if ! "$python" -c "import $driver, sys; from zanteyard.trial.$module import $program; sys.exit(not $program())" 2> /dev/null; then
        echo "skipped: what needs $name and $driver, which aren't both installed (nothing was audited over it)"
    fi
done
for each in psycopg sqlalchemy django asyncpg; do
    if ! "$python" -c "import $each" 2> /dev/null; then
        echo "skipped: what needs $each, which isn't installed (no program over it was run through the proxy)"
    fi
done
if [ ! -x "${ZANTEYARD_PROXY:-../proxy/out/zanteyard-proxy}" ]; then
    echo "skipped: what needs the proxy, which isn't built by proxy/build.sh (no application was watched over a real one)"
fi
if ! "$python" -c "import psycopg2" 2> /dev/null || ! "$python" -c "import sys; from zanteyard.trial.postgres_server import program; sys.exit(not program('initdb'))"; then
    echo "skipped: what needs PostgreSQL and psycopg2, which aren't both installed (nothing was audited live)"
fi
if ! command -v cc > /dev/null; then
    echo "skipped: what needs a C compiler, cc, which isn't installed (no device failed, and no memory was refused)"
fi
echo "the collectors' tests passed"
