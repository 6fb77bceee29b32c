#!/usr/bin/env bash
# A first try, on a machine with the kit (its command rt). It installs the Debian packages that it needs, if it runs as root; takes the
# auditor that the gate has built here, or the one that COBRA_AUDIT names, or builds one without proofs; builds the proxy; installs the wheel
# into a new virtual environment; and audits a small shop on a PostgreSQL server of its own, in a temporary folder: its bug is found at
# PostgreSQL's default isolation level, and nothing at serializable. If there is no PostgreSQL, it says so, and audits an embedded SQLite.
# It takes a few minutes on an idle machine. Its status is 0 if the bug was found and explained. Then it says what to run next.
#
#     ./try.sh [--sqlite] [FOLDER]      the folder is replaced (out/try); --sqlite leaves PostgreSQL out
set -euo pipefail
needs=(wheel PostgreSQL "the proxy")
if [ "${1:-}" = --sqlite ]; then needs=(wheel); shift; fi
folder=$(realpath -m "${1:-$(dirname "$0")/out/try}")
cd "$(dirname "$0")"
auditor=${COBRA_AUDIT:-}
unset COBRA_AUDIT COBRA_CHECK PYTHONPATH
began=$SECONDS
step() { echo; echo "== $* (after $((SECONDS - began)) s)"; }
fail() { echo "try.sh: $*" >&2; exit 1; }

step "Debian's packages"
for each in "${needs[@]}"; do ./install_packages.sh "$each"; done
python=
for each in /usr/bin/python3 python3; do
    if "$each" -c "import tomllib, venv, ensurepip, setuptools, wheel" 2> /dev/null; then python=$each; break; fi # tomllib: 3.11
done
[ -n "$python" ] || fail "Python 3.11 or later is missing, with$(sed -n 's/^wheel://p' packages.txt)"

[ ! -e "$folder" ] || [ -e "$folder/.try" ] || fail "$folder exists, and isn't from an earlier try"
rm -rf "$folder"
mkdir -p "$folder"
touch "$folder/.try"

if [ "${#needs[@]}" -gt 1 ]; then
    step "the proxy"
    if [ -x proxy/out/zanteyard-proxy ]; then
        proxy/out/zanteyard-proxy --version
    elif ! command -v go > /dev/null; then
        echo "not built, because Go isn't installed"
    elif ! proxy/build.sh 2> "$folder/proxy.log"; then
        echo "not built: $(tail -n 1 "$folder/proxy.log")"
    fi
fi

step "the wheel"
if ./package.sh --built --output "$folder" > "$folder/log" 2>&1; then
    echo "with the programs that the gate proved and built here"
elif [ -n "$auditor" ]; then
    ./package.sh "--unproved=$auditor" --output "$folder"
else
    command -v rt > /dev/null || fail "the kit's command rt isn't on the PATH (README.md names the kit)"
    ./package.sh --unproved --auditor-alone --output "$folder"
fi

step "an environment: $folder/venv"
mkdir -p "$folder/venv/lib64" # with it and --copies venv makes no link: rt takes no tree that contains one
"$python" -m venv --copies --system-site-packages "$folder/venv" # for the driver, which is one of Debian's packages
"$folder/venv/bin/pip" install -q --no-index --no-deps --ignore-installed --disable-pip-version-check "$folder"/zanteyard-*.whl
"$folder/venv/bin/zanteyard" --version | grep -v missing

zanteyard=$folder/venv/bin/zanteyard
status=3 # what is needed for PostgreSQL is missing
if [ "${#needs[@]}" -gt 1 ]; then
    step "an audit of an application on PostgreSQL"
    status=0
    "$folder/venv/bin/python" examples/try_postgres.py "$zanteyard" "$folder" || status=$?
fi
if [ "$status" -eq 3 ]; then
    step "an audit of SQLite: four clients count, each statement a transaction of its own, which loses updates"
    status=0
    (cd "$folder" && "$zanteyard" bench sqlite --level autocommit --workload counter --clients 4 --rate 400 --every 60 \
        --seconds 600 --unaudited 0 --rather-wait --html violation.html) || status=$?
    [ "$status" -eq 1 ] || fail "the audit ended with status $status, but should have found a violation (status 1)"
    printf '\n%s\n' "The violation's page is $folder/violation.html: open it in a browser."
elif [ "$status" -ne 0 ]; then
    fail "the audit of the shop failed (status $status)"
fi

step "what next"
cat << END
The command is $zanteyard:

    zanteyard demo write-skew            another fault, in an in-memory store
    zanteyard check history.edn          checks a history of Jepsen and other tools
    zanteyard help                       all commands

docs/WATCH.md shows how to audit an application of yours.
./test.sh proves and tests everything, in up to three hours.
END
