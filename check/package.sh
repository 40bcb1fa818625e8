#!/usr/bin/env bash
# check/package.sh FOLDER: makes the sdist and the wheel of the Python package shogi_host in the folder, without a network,
# by a Python that has build, setuptools and wheel (Debian's python3-build, python3-setuptools, python3-wheel). Without one
# it says so, and its status is 3.
set -euo pipefail
cd "$(dirname "$0")/.."
for python in python3 /usr/bin/python3; do
    if "$python" -c 'import build, setuptools, wheel' 2>/dev/null; then
        folder=$(mktemp -d)
        trap 'rm -rf "$folder"' EXIT
        cp -r LICENSE share/examples/{README.md,pyproject.toml,shogi_host} "$folder"
        find "$folder" -name __pycache__ -prune -exec rm -r {} +
        # As the crates call the program, and the last commit its date.
        grep -q "^version = \"$(sed -n 's/^#define USI_VERSION "\(.*\)"$/\1/p' share/library/usi_library.h)\"$" "$folder/pyproject.toml"
        SOURCE_DATE_EPOCH=$(git log -1 --format=%ct) "$python" -m build --no-isolation --outdir "$1" "$folder" >"$folder/told" 2>&1 || {
            cat "$folder/told" >&2
            exit 1
        }
        exit
    fi
done
echo 'Without the Python package: no Python here has build, setuptools and wheel.' >&2
exit 3
