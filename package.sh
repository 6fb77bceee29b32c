#!/usr/bin/env bash
# Makes a wheel of the Python package, including the auditor, in the folder out, in place of an earlier wheel. `pip install` needs only
# this one file.
#
#     ./package.sh                 with the auditor that the prover built; asks the prover whether anything has changed since
#     ./package.sh --built         the same without asking, if it is newer than all sources: for use right after the gate
#     ./package.sh --unproved      builds the auditor without a proof, in a minute or two, for a first try; its version says so. It has
#                                  its checks compiled in, and is about 300 times slower: ./try.sh shows a run that suits it
#     ./package.sh --deb ..        a Debian package instead, with the same content, units for systemd and man pages; it needs dpkg-deb, and
#                                  for the man pages Debian's python3-argparse-manpage
#
# It needs Python 3.11 or later with setuptools and wheel (on Debian python3-setuptools and python3-wheel), and downloads nothing.
set -euo pipefail
here=$(dirname "$0")
for python in /usr/bin/python3 python3; do
    if "$python" -c "import tomllib, setuptools, wheel" 2> /dev/null; then # tomllib: 3.11
        exec "$python" "$here/python/make_wheel.py" "$@"
    fi
done
echo "package.sh: Python 3.11 or later with setuptools and wheel is missing (Debian: apt-get install python3-setuptools python3-wheel)" >&2
exit 1
