#!/usr/bin/env bash
# Looks at the style of the Python files with ruff, or with pycodestyle where that isn't installed: a second, before each commit.
set -euo pipefail
cd "$(dirname "$0")"
python=${1:-python3}
files="zanteyard conftest.py import_graph.py make_deb.py make_wheel.py run_tests.py"
files+=$(printf ' ../examples/%s.py' postgres_live store_faults bank shop try_postgres rules)
if command -v ruff > /dev/null; then
    ruff check --no-cache --line-length 100 --select E,W --ignore E203,E402,E701,E731 $files
elif "$python" -m pycodestyle --version > /dev/null 2>&1; then
    "$python" -m pycodestyle --max-line-length=100 --ignore=E121,E126,E203,E402,E701,E704,E731,W503 $files
else
    echo "skipped: ruff or pycodestyle, neither of which is installed (no line was measured)"
fi
