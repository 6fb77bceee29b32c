#!/bin/sh
# Checks and tests the proxy. Tests that need a PostgreSQL server start their own, or are skipped if none is installed.
set -eu
cd "$(dirname "$0")"
if ! command -v go >/dev/null; then
    echo "proxy: skipped, Go isn't installed (golang-go)"
    exit 0
fi
if [ ! -e /usr/include/pg_query.h ]; then
    echo "proxy: skipped, libpg_query isn't installed (libpg-query-dev)"
    exit 0
fi
for library in github.com/jackc/pgproto3/v2 github.com/jackc/pgconn github.com/gomodule/redigo/redis; do
    if [ ! -d "/usr/share/gocode/src/$library" ]; then
        echo "proxy: skipped, Go's library $library isn't installed (packages.txt has its package)"
        exit 0
    fi
done
. ./env.sh
unformatted=$(gofmt -l src)
if [ -n "$unformatted" ]; then
    echo "not formatted (gofmt -w): $unformatted" >&2
    exit 1
fi
go vet zanteyard/...
# Runs tests with the race detector. Up to two packages that failed next to others, without a data race or a panic, run once more by
# themselves; both results are printed.
told=$(mktemp)
trap 'rm -f "$told"' EXIT
tests() {
    # A package that hangs fails after 20 minutes; on a busy machine the usual ten may be too short for one that doesn't.
    status=0
    { go test -race -timeout 20m "$@" || echo $? > "$told.status"; } 2>&1 | tee "$told"
    if [ -e "$told.status" ]; then status=$(cat "$told.status"); rm -f "$told.status"; fi
    [ "$status" -ne 0 ] || return 0
    failed=$(sed -n 's/^FAIL[[:space:]]\(zanteyard[^[:space:]]*\)[[:space:]][0-9.]*s$/\1/p' "$told")
    if [ -z "$failed" ] || [ "$(echo "$failed" | wc -l)" -gt 2 ] || grep -qE '^WARNING: DATA RACE|^panic: ' "$told"; then
        return "$status"
    fi
    for package in $failed; do
        echo "once more, by itself: $package"
        go test -race -timeout 20m -count 1 "$package" || return
        echo "FAILED ONCE, then passed by itself: $package"
    done
}
tests "$@" zanteyard/...
# A panic at each place of an audit: the places are in the program only with this tag.
go vet -tags faults zanteyard/guard zanteyard/cmd/zanteyard-proxy
go test -race -timeout 20m -tags faults "$@" zanteyard/cmd/zanteyard-proxy -run '^TestFaults$'
# Sessions again, served by goroutines, as with TLS.
go test -race -timeout 20m "$@" zanteyard/session -without-loop
./build.sh
