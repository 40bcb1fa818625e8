#!/usr/bin/env bash
# Runs the program on standard input: the one that `make build` made, where there is one, and else one
# that is compiled without a proof, once. Its arguments are those of the program, as
# `stdio --eval exchange`.
set -euo pipefail
cd "$(dirname "$0")/.."
program=$PWD/crates/usi_host/out/usi_host
[ -x "$program" ] || program=$(check/unproved.py)
if [ -t 0 ] && [ $# -eq 0 ]; then
    echo 'Reading USI from the terminal. Try: isready, then: go depth 3, then: quit' >&2
fi
exec "$program" "$@"
