#!/usr/bin/env bash
# The gate. First what the READMEs show, and `rt ci`: every proof, each edit that must be refused, each
# test, each program; what an earlier run passed on this machine is kept there by checksums. Then the
# program and the library for C are built and used as their users do, and the benchmark is laid over
# earlier commits. At the end, or where it is cut off, it tells what it cost, and shows again what
# failed. The last line counts all of it.
set -uo pipefail
cd "$(dirname "$0")/.."
log=$(mktemp)
check/costs.py $$ & costs=$!
trap 'rm -f "$log"' EXIT

status=0
check/readmes.py | tee "$log" || status=1
rt ci | tee -a "$log" || status=1
if [ $status -eq 0 ]; then
    # What was proved just now is not proved once more.
    check/build.py --passed usi_host usi_library
    if make --no-print-directory library; then
        check/program.py | tee -a "$log" || status=1
        check/serve.py | tee -a "$log" || status=1
        check/examples.py | tee -a "$log" || status=1
        check/package.py | tee -a "$log" || status=1
        check/library.py | tee -a "$log" || status=1
        check/old.py | tee -a "$log" || status=1
    else
        echo '0 passed, 1 failed' | tee -a "$log"
        status=1
    fi
fi
kill $costs
wait $costs
grep -E 'FAILED|NOT (PROVED|REFUSED|TRIED)|BAD EDIT' "$log" | tail -n 20
awk '/^[0-9]+ passed, [0-9]+ failed$/ { passed += $1; failed += $3 }
     END { print passed + 0 " passed, " failed + 0 " failed" }' "$log"
exit $status
