#!/usr/bin/env bash
# The test command. It installs the Debian packages that the tests need, if it runs as root; then runs the gate (`rt ci`: every proof from
# scratch, the edits that must be refused, the programs and their tests), the proxy's tests in Go, and the Python tests, with the auditor
# that the gate has just proved and built. The last line is the gate's, `N passed, M failed`. If the proxy's or the Python tests fail, each
# counts as one more failure, so that line alone can't be taken for a pass.
set -euo pipefail
cd "$(dirname "$0")"
export COBRA_AUDIT=$PWD/crates/cobra_audit/out/cobra_audit PYTHONDONTWRITEBYTECODE=1
rm -f "$COBRA_AUDIT" # so a file that is there later is from this run
told=$(mktemp)
trap 'rm -f "$told"' EXIT

./install_packages.sh

gate=0
rt ci | tee "$told" || gate=$?
passed=0 failed=0
if [[ $(tail -n 1 "$told") =~ ^([0-9]+)\ passed,\ ([0-9]+)\ failed$ ]]; then
    passed=${BASH_REMATCH[1]} failed=${BASH_REMATCH[2]}
else
    echo "FAILED: the gate ended without its last line (status $gate)"
    gate=1
fi
[ "$gate" -eq 0 ] || [ "$failed" -gt 0 ] || failed=1

echo "== proxy"
proxy=0
proxy/test.sh 2>&1 || proxy=$?
if [ "$proxy" -ne 0 ]; then
    echo "FAILED: proxy/test.sh (status $proxy)"
    failed=$((failed + 1))
fi

echo "== python"
python=0
python/test.sh 2>&1 || python=$?
if [ "$python" -ne 0 ]; then
    echo "FAILED: python/test.sh (status $python)"
    failed=$((failed + 1))
fi
echo "$passed passed, $failed failed"
[ "$failed" -eq 0 ]
