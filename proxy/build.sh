#!/bin/sh
# Builds zanteyard-proxy into proxy/out, or into the given folder. It needs Debian's golang-go, libpg-query-dev,
# golang-github-jackc-pgproto3-v2-dev, golang-github-jackc-pgconn-dev and golang-github-gomodule-redigo-dev, and
# downloads nothing.
set -eu
cd "$(dirname "$0")"
. ./env.sh
out=${1:-$PWD/out}
mkdir -p "$out"
commit=$(git describe --always --dirty 2>/dev/null || echo "no commit")
stamp="$(cat ../VERSION 2>/dev/null || echo 0) ($commit, $(go env GOVERSION))"
# Linked statically, if the libraries' archives are installed: the program then runs on any Linux for this kind of processor.
static="-linkmode external -extldflags '-static'"
if ! go build -trimpath -tags netgo,osusergo -ldflags "-s -w -X 'main.build=$stamp' $static" \
    -o "$out/zanteyard-proxy" zanteyard/cmd/zanteyard-proxy 2>"$out/build.log"; then
    echo "no static build here, see $out/build.log: the program needs libpg_query where it runs" >&2
    go build -trimpath -ldflags "-s -w -X 'main.build=$stamp'" -o "$out/zanteyard-proxy" zanteyard/cmd/zanteyard-proxy
fi
"$out/zanteyard-proxy" --version
