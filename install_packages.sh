#!/usr/bin/env bash
# Installs the Debian packages in packages.txt that are missing, if it runs as root and apt-get can reach an archive. It never fails: one
# line names the packages that can't be installed, and the tests that need them are skipped with a message.
#
#     ./install_packages.sh            all of them, as ./test.sh needs them
#     ./install_packages.sh wheel      those of one line of packages.txt, as ./try.sh needs them
set -uo pipefail
cd "$(dirname "$0")"
missing() { # prints the packages of packages.txt that aren't installed, one on each line
    sed -n "s/^${1:-[^#:][^:]*}://p" packages.txt | tr -s ' ' '\n' | sed '/^$/d' | while read -r name; do
        [ "$(dpkg-query -W -f '${db:Status-Status}' "$name" 2> /dev/null)" = installed ] || echo "$name"
    done
}
if ! command -v dpkg-query > /dev/null || ! command -v apt-get > /dev/null; then
    echo "installed no packages: this isn't Debian; packages.txt lists what the tests need"
    exit 0
fi
mapfile -t names < <(missing "$@")
[ "${#names[@]}" -gt 0 ] || exit 0
if [ "$(id -u)" -ne 0 ]; then
    echo "not installed, because this doesn't run as root: ${names[*]}"
    exit 0
fi
echo "installing ${#names[@]} packages: ${names[*]}"
export DEBIAN_FRONTEND=noninteractive
timeout 300 apt-get update -qq > /dev/null 2>&1 || true
if ! timeout 1200 apt-get install -y -qq -o DPkg::Lock::Timeout=120 --no-install-recommends "${names[@]}" > /dev/null 2>&1; then
    for name in "${names[@]}"; do # so that one which isn't available doesn't prevent the others
        timeout 600 apt-get install -y -qq --no-install-recommends "$name" > /dev/null 2>&1 || true
    done
fi
mapfile -t names < <(missing "$@")
[ "${#names[@]}" -eq 0 ] || echo "couldn't install: ${names[*]}"
exit 0
